%% What is checked of each program whose first lines say what is expected of it:
%%   %% words: ..   words for the converter
%%   %% depth: N    no schedule is longer
%%   %% error: E    the errors of the whole report, each of them, in its order
-module(program_checks).

-export([header/1, report/2, shaken/2, same_text/3, taken/1]).

-define(RUNS, 60).

header(File) ->
    {ok, Bytes} = file:read_file(File),
    Lines = string:split(unicode:characters_to_list(Bytes), "\n", all),
    #{words => lists:append([string:lexemes(Words, " ") || "%% words: " ++ Words <- Lines]),
      needs => [list_to_atom(Application) || "%% needs: " ++ Application <- Lines],
      depth => hd([list_to_integer(N) || "%% depth: " ++ N <- Lines] ++ [none]),
      errors => [E || "%% error: " ++ E <- Lines]}.

report(Report, Errors) ->
    case explorer:errors(Report) of
        Errors -> passed;
        Others -> {failed, {wanted, Errors, found, Others, Report}}
    end.

%% ---- on the real machine

%% Each end of runs of a program, which the first file has, is one of the errors. All its files are shaken. On a busy
%% machine a timeout may come late, and what waits for it is taken to wait for ever: so what is missing is looked for again,
%% with more patience.
shaken([File | _] = Files, Errors) ->
    [ok = shaken_runs:load(F, module_of(F)) || F <- Files],
    case missing(module_of(File), Errors, 80) of
        [] -> passed;
        _ ->
            case missing(module_of(File), Errors, 800) of
                [] -> passed;
                Missing -> {failed, {seen_but_not_reported, Missing}}
            end
    end.

missing(Module, Errors, Quiet) ->
    Entry = case erlang:function_exported(Module, main, 0) of true -> main; false -> start end,
    Seen = lists:usort([shaken_runs:run(Module, Entry, Quiet) || _ <- lists:seq(1, ?RUNS)]),
    Ends = [end_of(E) || E <- Errors],
    Deadlocks = [string:lexemes(Names, " ") || "deadlock of " ++ Names <- Errors],
    lists:usort([X || {Ended, _} <- Seen, X <- [{Who, real_terms:text(R)} || {Who, R} <- Ended], not lists:member(X, Ends)])
        ++ lists:usort([{waits, W} || {_, W} <- Seen, not is_deadlock(W, Deadlocks)]).

module_of(File) -> list_to_atom(filename:basename(File, ".erl")).

end_of(Error) ->
    case string:split(Error, " ends ") of
        ["P", Reason] -> {first, real_terms:without_names(Reason)};
        [_, Reason] -> {other, real_terms:without_names(Reason)};
        [_] -> none
    end.

is_deadlock({0, false}, _) -> true;
is_deadlock({Count, First}, Deadlocks) ->
    lists:any(fun(Names) -> length(Names) =:= Count andalso lists:member("P", Names) =:= First end, Deadlocks).

%% ---- the same each time

%% The script, in a machine of its own, prints these bytes of these words too.
same_text(Folder, Words, Text) ->
    Quoted = [[" '", W, "'"] || W <- Words],
    Command = lists:flatten(io_lib:format("escript '~ts'~ts", [filename:join(Folder, "convert.escript"), Quoted])),
    case list_to_binary(os:cmd(Command)) of
        Text -> passed;
        Other -> {failed, {other_text, string:slice(Other, 0, 300)}}
    end.

%% They are Core Erlang for the compiler.
taken(Text) ->
    case explorer:is_taken_by_erlang(Text) of
        true -> passed;
        false -> {failed, no_core_erlang}
    end.
