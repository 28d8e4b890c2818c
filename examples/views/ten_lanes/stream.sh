applystream --at 2026-05-04T09:30:00Z --parallelism 10 --script script.json <plan.json
