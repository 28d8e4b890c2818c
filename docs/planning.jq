# Adds to the script of a stream what came before the plan's summary (`planning`):
# applystream record --plan plan.json stream.jsonl | jq -c --slurpfile plan plan.json --slurpfile stream stream.jsonl -f planning.jq > script.json
def key: "\(.address) \(.deposed_key // .deposed // "")";
def by(f): map({(f): .}) | add // {};
def place(f): map(f) | index(true);
def filled: with_entries(select(.value | . != null and . != "" and . != false and . != 0));
def modules: ., (.child_modules[]? | modules);
def second: ."@timestamp" | (.[:19] + "Z" | fromdate) + if .[20:21] >= "5" then 1 else 0 end;      # the nearest one
. as $script | $plan[0] as $plan | ($plan.complete == false and $plan.errored != true) as $targeted
# The objects that a run refreshes or reads without a script, with their ids before and after.
| ([$plan.resource_changes[]?] | by(key)) as $changes | ([$plan.resource_drift[]? | select(.mode == "managed")] | by(key)) as $drifts
| ([$drifts[], ($plan.prior_state.values.root_module | values | modules.resources[]?) | key as $key
    | select($changes[$key].change.actions != ["forget"] and (($targeted | not) or .mode == "managed" and ($changes[$key] // $drifts[$key]) != null))
    | {address, deposed: (.deposed_key // .deposed), mode, before: ($drifts[$key].change.before // .values).id, after: .values.id}] | by(key)) as $objects
| ([$objects[]] | sort_by(.deposed) | group_by(.address) | by(.[0].address)) as $known
# The objects of the stream, each with its messages from its last start on: up to the plan's summary, or without one up to the first step.
| ($stream | place(.changes.operation == "plan")) as $summary
| ($summary // ($stream | place(.type == "planned_change" or .type == "apply_start" and .hook.action != "read")) // ($stream | length)) as $until
| ($stream[:$until] | to_entries | map(.key as $place | .value | select(.type | test("^(refresh|apply)_"))
    | .hook as {resource: {addr: $address}, id_value: $id}
    | (first($known[$address][]? | select(.before == $id or .after == $id)) // $known[$address][0] // {address: $address}) + {$place, message: .})
  | group_by(key) | map(.[(map(.message.type | endswith("_start")) | rindex(true)) // length:] | select(length > 0)) | sort_by(.[0].place)) as $started
# Their entries. Without an end, a read takes a diagnostic of its address, and a refresh an error of it; otherwise they take an error without
# an address. If an apply follows, no error is one of the planning, and a read has only warned.
| any($stream[$until + 1:][]; .type == "apply_start" or .type == "change_summary") as $applied
| [$stream[].diagnostic | objects | {summary} + ({severity, address, detail, range, snippet} | filled)] as $diagnostics
| ($stream[:$until + 1][-1] | second) as $last
| [foreach $started[] as $lines ({used: []};
    $lines[0] as {$address, $deposed, $mode, $after, message: $start} | ($start.type == "apply_start") as $reads
    | ($lines | map(.message | select(.type | endswith("_complete")))[0]) as $complete
    | .reason = (if $complete then null else ($diagnostics - .used | sort_by(.severity != "error") | map(select(.severity != "error" or ($applied | not))))
        | first((.[] | select(.address == $address and ($reads or .severity == "error"))), (.[] | select(.address == null and .severity == "error")),
          (select($applied and $reads) | {summary: "failed", severity: "warning"}), null) end)
    | .used += [.reason | values]
    | .entry = ({address: $address, deposed: $deposed,
        seconds: ($complete.hook.elapsed_seconds // ((if $complete then $complete | second else $last end) - ($start | second))
          | [., if $complete or ($reads | not) then 86400 else ($lines | map(.message.hook.elapsed_seconds // 0) | max) + 10 end] | [min, 0] | max),
        id: (if $mode then null else $complete.hook.id_value // $start.hook.id_value end),
        failed: (.reason | if . then del(.address) | del(.severity | select(. == "error")) else . end),
        gone: ($complete != null and $complete.hook.id_value == null and $start.hook.id_value != null)} | filled)
    | .is_needed = ($mode == null or .entry.seconds or .entry.failed or .entry.gone and $after != null);
    .)]
| [.[].reason | values] as $used
# Without an error, an object that did not start was skipped.
| ($started | map(.[0]) | by(key)) as $begun | any($begun[].message; .type == "refresh_start") as $refreshes
| (map(select(.is_needed).entry) + [if $summary and all($used[]; .severity == "warning") then $objects[] else empty end
    | select($begun[key] == null and (.mode == "data" or $refreshes)) | {address, deposed, skipped: true} | filled]) as $planning
# The two warnings that a run prints by itself are left out.
| $script | .planning = $planning
| .diagnostics = (if $applied then .diagnostics // [] else $diagnostics - $used end | map(select(.severity == "warning"
    and (.summary == "Some objects will no longer be managed by Terraform" or $targeted and .summary == "Resource targeting is in effect") | not)))
