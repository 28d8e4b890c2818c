cat ../../cases/scripts/with_everything/stream.jsonl
