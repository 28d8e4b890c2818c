cat ../../cases/streams/one_create/stream.jsonl
