#!/usr/bin/env bash
# Applies a saved plan, keeps its stream, checks it and draws it: for any pipeline with bash and GNU tee.
# It writes stream.jsonl, view.svg and view.txt into FOLDER, and the picture into GitHub's summary if there is one.
# A failed apply also leaves plan.json and graph.dot there. This makes a script of it, to tell the apply again:
#   applystream record --plan plan.json --graph graph.dot stream.jsonl > script.json
# plan.json has sensitive values in plain text.
# The exit status is Terraform's if the apply failed. Otherwise it is that of `applystream check`: 4 if the stream is not whole.
# usage: apply.sh [PLAN [FOLDER]]    without them: tfplan, and this folder
set -u -o pipefail
plan=${1:-tfplan}
folder=${2:-.}
mkdir -p "$folder" || exit

# Before the apply: afterwards the plan is stale.
terraform show -json "$plan" >"$folder/plan.json"
terraform graph -plan="$plan" >"$folder/graph.dot"

# After Ctrl-C, Terraform stops in its own way, and this script goes on.
trap : INT
# With -ip, tee outlives an interrupt and a log that nobody reads any more. If tee ended, SIGPIPE would kill Terraform.
terraform apply -json "$plan" | tee -ip "$folder/stream.jsonl"
applied=$?
[ "$applied" != 0 ] || rm -f "$folder/plan.json" "$folder/graph.dot"

applystream check "$folder/stream.jsonl"
checked=$?

applystream view --svg "$folder/stream.jsonl" >"$folder/view.svg"
applystream view --width 100 "$folder/stream.jsonl" | tee "$folder/view.txt"
if [ -n "${GITHUB_STEP_SUMMARY-}" ] && [ -s "$folder/view.txt" ]; then
  applystream view --markdown "$folder/stream.jsonl" >>"$GITHUB_STEP_SUMMARY"
fi

[ "$applied" = 0 ] || exit "$applied"
exit "$checked"
