-- The load of test_load.py: each thread has one connection, and compares each response with the expected one.
-- Arguments: a file with a line for each query: the path, a tab, the expected result.
local threads = {}

function setup(thread)
    thread:set("number", #threads + 1)
    table.insert(threads, thread)
end

function init(arguments)
    math.randomseed(number * 7919)
    wrong, failed, passed, queries = 0, 0, 0, {}
    for line in io.lines(arguments[1]) do
        local path, expected = line:match("^(.-)\t(.*)$")
        table.insert(queries, { wrk.format("GET", path), expected })
    end
end

function request()
    current = queries[math.random(#queries)]
    return current[1]
end

function response(status, headers, body)
    if status == 200 and body:find(current[2], 1, true) then
        passed = passed + 1
    elseif status == 503 then
        failed = failed + 1
    else
        wrong = wrong + 1
        if wrong < 4 then io.stderr:write(status, " ", body, " expected ", current[2], "\n") end
    end
end

function done(summary, latency)
    local counts = { passed = 0, failed = 0, wrong = 0 }
    for _, thread in ipairs(threads) do
        for name, count in pairs(counts) do counts[name] = count + thread:get(name) end
    end
    io.write(string.format(
        '{"passed": %d, "failed": %d, "wrong": %d, "seconds": %.3f, ' ..
            '"p50": %.3f, "p99": %.3f, "max": %.3f, "lost": %d}\n',
        counts.passed, counts.failed, counts.wrong, summary.duration / 1e6, latency:percentile(50) / 1e3,
        latency:percentile(99) / 1e3, latency.max / 1e3,
        summary.errors.read + summary.errors.timeout + summary.errors.connect))
end
