cat ../../cases/parallelism/10/stream.jsonl
