cat ../../cases/check/terraform_mixed/input.jsonl
