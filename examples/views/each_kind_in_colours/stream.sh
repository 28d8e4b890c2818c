cat ../each_kind/stream.jsonl
