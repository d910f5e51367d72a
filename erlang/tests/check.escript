#!/usr/bin/env escript
%%! +A0
%% check.escript PROGRAM FOLDER [PART ..]
%% Runs the tests of the converter with that program, and a folder to write in. Parts are snippets,
%% random, refusals, doubts, command, library, linked, programs and behaviours; without one all of them.
-mode(compile).
-include("../built.hrl").

main([Program, Folder | Parts]) ->
    ok = io:setopts(standard_io, [{encoding, utf8}]),
    logger:set_primary_config(level, none),
    Here = filename:dirname(filename:absname(escript:script_name())),
    Out = built(filename:dirname(Here), "converter", fun(_) -> error(not_converted_before) end),
    [load(File) || File <- filelib:wildcard(filename:join(Here, "*.erl"))],
    {ok, Bytes} = file:read_file(filename:join(Out, "library.terms")),
    Library = binary_to_term(Bytes),
    Results = lists:append([part(P, Program, Here, Folder, Library) || P <- parts(Parts)]),
    Failed = [R || {_, Outcome} = R <- Results, Outcome =/= passed],
    [io:format("failed: ~ts~n  ~tp~n", [Name, Why]) || {Name, {failed, Why}} <- Failed],
    io:format("~w passed, ~w failed~n", [length(Results) - length(Failed), length(Failed)]),
    halt(case Failed of [] -> 0; _ -> 1 end).

parts([]) -> ["snippets", "random", "refusals", "doubts", "command", "library", "linked", "programs", "behaviours"];
parts(Parts) -> Parts.

load(File) ->
    {ok, Module, Code} = compile:file(File, [binary, report_errors]),
    {module, Module} = code:load_binary(Module, File, Code).

part("snippets", Program, Here, Folder, Library) -> snippet_tests:all(Program, Here, Folder, Library);
part("random", Program, Here, Folder, Library) ->
    random_tests:all(Program, Folder, Library) ++ random_calls:all(Program, filename:dirname(Here), Folder, Library)
        ++ random_dictionaries:all(Program, Folder, Library) ++ random_tables:all(Program, Folder, Library)
        ++ random_guards:all(Program, Folder, Library);
part("refusals", Program, Here, Folder, Library) -> refusal_tests:all(Program, Here, Folder, Library);
part("doubts", _, Here, Folder, Library) -> doubt_tests:all(Here, Folder, Library);
part("command", _, Here, Folder, _) -> command_tests:all(filename:dirname(Here), Folder);
part("linked", Program, Here, Folder, Library) -> linked_tests:all(Program, Here, Folder, Library);
part("library", _, Here, _, _) -> library_tests:all(filename:dirname(Here));
part("programs", Program, Here, Folder, Library) -> program_tests:all(Program, filename:dirname(Here), Folder, Library);
part("behaviours", Program, Here, Folder, Library) -> behaviour_tests:all(Program, filename:dirname(Here), Folder, Library).
