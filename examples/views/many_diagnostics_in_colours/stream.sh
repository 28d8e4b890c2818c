cat ../many_diagnostics/stream.jsonl
