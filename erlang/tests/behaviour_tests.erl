%% Programs with OTP's own behaviours, as their first lines describe them (program_checks.erl). A search by states is complete
%% and has their errors, and nothing that is not read is reached; each end that shaken runs on the real machine show is one of
%% them; and the text is the same each time.
-module(behaviour_tests).

-export([all/4]).

%% No schedule of a program here is longer.
-define(DEPTH, 300).

all(Program, Folder, Work, Library) ->
    Files = lists:sort(filelib:wildcard(filename:join(Folder, "programs/{behaviours,real}/*.erl"))),
    lists:append([one(File, Program, Folder, Work, Library) || File <- Files, not is_of_another(File, Files)]).

%% What a program has beside it: NAME_worker.erl belongs to NAME.erl.
is_of_another(File, Files) -> lists:any(fun(Other) -> File =:= worker_of(Other) end, Files).

worker_of(File) -> filename:rootname(File) ++ "_worker.erl".

%% Where a program needs an application that is not installed, that is said, and nothing is tried.
one(File, Program, Folder, Work, Library) ->
    #{needs := Needs} = Header = program_checks:header(File),
    case [Application || Application <- Needs, code:lib_dir(Application) =:= {error, bad_name}] of
        [] -> tried(File, Header, Program, Folder, Work, Library);
        [Missing | _] ->
            io:format("not tried: ~ts, since ~ts is not installed~n", [filename:basename(File), Missing]),
            []
    end.

tried(File, #{words := Words0, needs := Needs, errors := Errors}, Program, Folder, Work, Library) ->
    Words = Words0 ++ lists:append([["-pa", code:lib_dir(Application, ebin)] || Application <- Needs]),
    {Title, Outcomes} = case converter:run([File | Words], Library) of
        {0, Text, _} ->
            Report = explorer:explore_states(Program, Work, Text, ?DEPTH),
            Files = [File | filelib:wildcard(worker_of(File))],
            {": ", [{"report", program_checks:report(Report, Errors)},
                    {"whole", whole(Report)},
                    {"shaken runs", program_checks:shaken(Files, Errors)},
                    {"text", program_checks:same_text(Folder, [File | Words], Text)}]};
        {_, _, Refused} -> {"", [{"", {failed, lists:flatten(Refused)}}]}
    end,
    [{"behaviours: " ++ filename:basename(File, ".erl") ++ Title ++ What, Outcome} || {What, Outcome} <- Outcomes].

%% The search found all states, and no process came to what is not read.
whole(Report) ->
    case {re:run(Report, "^depth [0-9]+, states [0-9]+, complete\n"), re:run(Report, "\nerrors [0-9]+, refusals 0\n")} of
        {{match, _}, {match, _}} -> passed;
        _ -> {failed, {not_whole, Report}}
    end.
