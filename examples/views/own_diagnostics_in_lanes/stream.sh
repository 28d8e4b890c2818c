cat ../../cases/parallelism/diagnostics/stream.jsonl
