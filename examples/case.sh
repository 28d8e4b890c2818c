# shellcheck shell=bash disable=SC2034
# What the folder of an example says, for the scripts that run the examples.

# Goes into the folder of an example, and reads from it the program's arguments (args) and the file that is its standard
# input (input).
read_case() {
  cd "$1" || return
  args=()
  [ ! -e args.txt ] || mapfile -t args <args.txt
  [ ! -e script.json ] || args+=(--script script.json)
  input=/dev/null
  [ ! -e plan.json ] || input=plan.json
  [ ! -e input.jsonl ] || input=input.jsonl
  [ ! -e input.of ] || input=$(cat input.of)
}
