%% Pieces of source, each with a function run/0: what it gives, or raises, is the same on the
%% real machine and in the explorer.
-module(snippet_tests).

-export([all/4, one/3, load/1, ended/2]).

all(Program, Here, Folder, Library) ->
    %% the server of timers stays when what a piece left behind is ended
    ok = timer:start(),
    Files = filelib:wildcard(filename:join(Here, "snippets/*.txt")),
    [one(filename:basename(File, ".txt"), Block, {Program, Folder, Library}) || File <- Files, Block <- blocks:read(File)].

one(Subject, {Title, Words, Lines}, Around) ->
    {Subject ++ ": " ++ Title, try same(Words, Lines, Around) catch C:R:S -> {failed, {C, R, S}} end}.

same(Words, Lines, {Program, Folder, Library}) ->
    File = filename:join(Folder, "snippet.erl"),
    Main = "main() -> exit({result, run()}).",
    ok = file:write_file(File, unicode:characters_to_binary(blocks:module("snippet", Lines ++ [Main]))),
    Real = "P ends " ++ real_terms:text(ended(load(File), main)),
    case converter:run([File | Words], Library) of
        {0, Text, _} ->
            Report = explorer:explore(Program, Folder, Text, 60),
            case [real_terms:without_names(E) || "P ends " ++ _ = E <- explorer:errors(Report)] of
                [Found] -> compared(real_terms:without_names(Real), Found, Text);
                _ -> {failed, {real, Real, report, Report}}
            end;
        {_, _, Refused} -> {failed, {refused, lists:flatten(Refused)}}
    end.

compared(Same, Same, Text) ->
    case explorer:is_taken_by_erlang(Text) of
        true -> passed;
        false -> {failed, no_core_erlang}
    end;
compared(Real, Found, _) -> {failed, {real, Real, found, Found}}.

load(File) ->
    {ok, Module, Code} = compile:file(File, [binary]),
    code:purge(Module),
    {module, Module} = code:load_binary(Module, File, Code),
    Module.

%% How a function of a module ends.
ended(Module, Function) ->
    Before = processes(),
    {Pid, Ref} = spawn_monitor(fun() -> group_leader(quiet_device:start(), self()), Module:Function() end),
    Reason = receive {'DOWN', Ref, process, Pid, R} -> R after 3000 -> waits end,
    clear(processes() -- Before),
    Reason.

%% Ends what a piece left behind.
clear(Pids) ->
    Refs = [begin exit(P, kill), monitor(process, P) end || P <- Pids],
    [receive {'DOWN', R, process, _, _} -> ok end || R <- Refs].
