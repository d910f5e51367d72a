%% Replays of schedules, which the command makes with the program when it is asked for them.
-module(report_replays).
-export([new/1, for_one/2, replay/2]).

%% How many replays are made at most for one error, and how many for a report; fewer where the module is large, since each replay
%% reads it: so many bytes are read for a report.
-define(FOR_ONE, 60).
-define(FOR_ALL, 200).
-define(BYTES, 12000000).

%% Where they are made, how many are left for the report, and how many for an error.
-record(replays, {folder, left}).

new(Folder) ->
    Left = counters:new(2, []),
    counters:put(Left, 1, min(?FOR_ALL, ?BYTES div max(1, filelib:file_size(filename:join(Folder, "module.core"))))),
    #replays{folder = Folder, left = Left}.

%% Begins with an error, of so many that are left: each has its share, and what one does not need is for the others.
for_one(Errors, #replays{left = Left}) -> counters:put(Left, 2, min(?FOR_ONE, counters:get(Left, 1) div Errors)).

%% The events of a schedule up to its first step that is not enabled, or `spent` where no more replays are to be made.
replay(Steps, #replays{folder = Folder, left = Left}) ->
    case counters:get(Left, 1) > 0 andalso counters:get(Left, 2) > 0 of
        true ->
            [counters:sub(Left, One, 1) || One <- [1, 2]],
            ok = file:write_file(filename:join(Folder, "schedule"), report_story:schedule_of(Steps)),
            io:put_chars("replay\n"),
            case io:get_line("") of
                "replayed\n" ->
                    {ok, Bytes} = file:read_file(filename:join(Folder, "replayed")),
                    report_reader:transcript(unicode:characters_to_list(Bytes));
                _ -> spent
            end;
        false -> spent
    end.
