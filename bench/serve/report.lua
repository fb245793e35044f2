-- Read by `wrk`: so many requests behind one another as the first word says, and one line of what came of a run:
-- requests, bytes, microseconds, failures.
function init(words)
    local depth = tonumber(words[1]) or 1
    local one = wrk.format()
    pipelined = string.rep(one, depth)
end

function request()
    return pipelined
end

function done(summary)
    local errors = summary.errors
    local failures = errors.connect + errors.read + errors.write + errors.status + errors.timeout
    io.write(string.format("run %d %d %d %d\n", summary.requests, summary.bytes, summary.duration, failures))
end
