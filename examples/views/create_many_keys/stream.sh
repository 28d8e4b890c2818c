cat ../../cases/check/terraform_create_many_keys/input.jsonl
