%% @doc Explores files by `./explore', one after the other, and says how each of them ended.
-module(rebar3_explore_run).

-export([all/4]).

%% Explores these files in the folder of the project, with compiled modules of some folders. Prints a line for each, its
%% report where it is not clean, and the sum. The files that are not clean.
-spec all(file:filename(), file:filename(), [file:filename()], [rebar3_explore_settings:item()]) -> [file:filename()].
all(Command, Root, Folders, Items) ->
    Modules = lists:append([["-pa", Folder] || Folder <- Folders]),
    Outcomes = [{File, one(Command, Root, Modules, Item)} || {_, File, _} = Item <- Items],
    io:format("explored ~b: ~ts~n", [length(Outcomes), sum([Outcome || {_, Outcome} <- Outcomes])]),
    [File || {File, Outcome} <- Outcomes, Outcome =/= clean].

one(Command, Root, Modules, {Kind, File, Words}) ->
    make_folders(Root, Words),
    {Status, Printed} = run(Command, Root, [File | Modules ++ Words]),
    Outcome = outcome(Status),
    io:format("~ts: ~ts~n", [File, line(Kind, Outcome, Status, string:split(string:trim(Printed, trailing), "\n", all))]),
    [io:format("~n~ts~n", [Printed]) || Outcome =/= clean, Printed =/= <<>>],
    Outcome.

%% ./explore makes no folder for the file of --junit.
make_folders(Root, Words) ->
    [ok = filelib:ensure_dir(filename:absname(File, Root)) || {"--junit", File} <- lists:zip(lists:droplast([none | Words]), Words)].

%% What it prints, and its status. What it says on standard error goes where that of rebar3 goes.
run(Command, Root, Words) ->
    Port = open_port({spawn_executable, Command}, [{args, Words}, {cd, Root}, exit_status, binary, use_stdio]),
    printed(Port, []).

printed(Port, Before) ->
    receive
        {Port, {data, Bytes}} -> printed(Port, [Before | Bytes]);
        {Port, {exit_status, Status}} -> {Status, iolist_to_binary(Before)}
    end.

outcome(0) -> clean;
outcome(1) -> errors;
outcome(3) -> incomplete;
outcome(_) -> failed.

%% What is said of a file: of a program what was explored, or how many errors there are; of tests their sum.
line(_, failed, Status, _) -> io_lib:format("not explored, status ~b: standard error says why", [Status]);
line(eunit, _, _, Lines) -> lists:last(Lines);
line(program, clean, _, [First | _]) -> [explored(First), ", no error"];
line(program, errors, _, Lines) -> hd([hd(string:split(Line, ",")) || <<"errors ", _/binary>> = Line <- Lines] ++ ["errors"]);
line(program, incomplete, _, _) -> "incomplete".

%% Which schedules were explored, in the words of the first line, `m.erl: all schedules, 30 states'.
explored(First) -> re:replace(lists:last(string:split(First, ": ")), ", [0-9]+ (states?|nodes?)", "").

sum(Outcomes) ->
    Told = [{clean, "no error"}, {errors, "errors"}, {incomplete, "incomplete"}, {failed, "not explored"}],
    Counts = [{Outcome, Name, length([it || Other <- Outcomes, Other =:= Outcome])} || {Outcome, Name} <- Told],
    lists:join(", ", [io_lib:format("~ts ~b", [Name, Count]) || {Outcome, Name, Count} <- Counts, Outcome =/= failed orelse Count > 0]).
