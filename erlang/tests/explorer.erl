%% The program that explores, run on a module of Core Erlang.
-module(explorer).

-export([explore/4, explore_states/4, errors/1, findings/1, is_taken_by_erlang/1]).

%% The report of the tree of schedules, or the line of a refusal.
explore(Program, Folder, Text, Depth) -> explore(Program, Folder, Text, Depth, "").

%% The report of a search by states, or the line of a refusal.
explore_states(Program, Folder, Text, Depth) -> explore(Program, Folder, Text, Depth, "--states").

explore(Program, Folder, Text, Depth, Search) ->
    File = filename:join(Folder, "module.core"),
    ok = file:write_file(File, Text),
    Command = io_lib:format("nice '~ts' explore --depth ~w --nodes 10000000 ~s < '~ts' 2>&1", [Program, Depth, Search, File]),
    %% os:cmd hands the bytes on; they are UTF-8
    unicode:characters_to_list(list_to_binary(os:cmd(lists:flatten(Command)))).

%% The errors of a report, as they are written after their numbers.
errors(Report) ->
    [Text || "error " ++ Rest <- string:split(Report, "\n", all), [_, Text] <- [string:split(Rest, ": ")]].

%% What a report lists, and its last two lines: all but the first line and the schedules.
findings(Report) ->
    [_ | Lines] = string:split(Report, "\n", all),
    [Line || Line <- Lines, not lists:prefix("  ", Line)].

%% Whether the compiler of this machine takes the text too.
is_taken_by_erlang(Text) ->
    {ok, Tokens, _} = core_scan:string(unicode:characters_to_list(Text)),
    {ok, Core} = core_parse:parse(Tokens),
    element(1, compile:forms(Core, [from_core, binary])) =:= ok.
