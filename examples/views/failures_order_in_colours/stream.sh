cat ../failures_order/stream.jsonl
