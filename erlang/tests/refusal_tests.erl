%% Pieces of source in which something is not read. Each line that begins with %> is one that has to be printed with --strict,
%% and nothing else is; without it there is a stop at that place. Those with %! are refused without it too; with %- there is
%% no stop, since it is a clause that is left out. Those with %= are the notes, of source that is read. With %~ it is what a
%% function of the library stops at, with --strict too.
-module(refusal_tests).

-export([all/4]).

-define(DEPTH, 40).

all(Program, Here, Folder, Library) ->
    Blocks = blocks:read(filename:join(Here, "refusals.txt")),
    lists:append([[{lists:concat([Kind, ": ", Title]), Result} || {Kind, Result} <- one(Block, {Program, Folder, Library})]
                  || {Title, _, _} = Block <- Blocks]).

one({_, Words, Lines}, Around) ->
    Source = [L || L <- Lines, not is_wanted(L)],
    Strict = {refusals, printed(["--strict" | Words], Source, [Text || [$%, C | Text] <- Lines, lists:member(C, ">!-")], Lines, Around)},
    case {[Text || "%>" ++ Text <- Lines], [Text || "%!" ++ Text <- Lines]} of
        {[], []} ->
            [Strict | [{'left out', printed(Words, Source, [], Lines, Around)} || "%-" ++ _ <- Lines]]
                ++ [{'in the library', stops_at(Text, Words, Source, Around)} || "%~ " ++ Text <- Lines];
        {_, [_ | _] = Always} -> [Strict, {'refused without --strict', printed(Words, Source, Always, Lines, Around)}];
        {Stops, []} -> [Strict | stopped(Words, Source, lists:usort([place(Text) || Text <- Stops]), Around)]
    end.

is_wanted([$%, C | _]) -> lists:member(C, ">!-=~");
is_wanted(_) -> false.

converted(Words, Source, {_, Folder, Library}) ->
    File = filename:join(Folder, "refused.erl"),
    ok = file:write_file(File, unicode:characters_to_binary(blocks:module("refused", Source))),
    {Status, Output, Errors} = converter:run([File | Words], Library),
    {File, Status, Output, unicode:characters_to_list(Errors)}.

%% ---- refused where it is written

printed(Words, Source, Refused, Lines, Around) ->
    {File, Status, Output, Errors} = converted(Words, Source, Around),
    Refusals = [File ++ Text ++ "\n" || Text <- Refused],
    Notes = ["note: " ++ Text ++ "\n" || "%= " ++ Text <- Lines],
    Wanted = {case Refusals of [] -> 0; _ -> 2 end, Refusals =/= [], lists:append(Notes ++ Refusals)},
    same(Wanted, {Status, unicode:characters_to_list(Output) =:= "", Errors}).

same(Same, Same) -> passed;
same(Wanted, Found) -> {failed, {wanted, Wanted, found, Found}}.

%% ---- refused where it is reached

%% There are stops at these places; the first process comes to one of them and shows no error of its own; and where it does
%% not come to them, the program is clean.
stopped(Words, Source, Places, Around) ->
    {_, Status, Text, Errors} = converted(["--notes" | Words], Source, Around),
    Noted = lists:usort([place(Line) || "note: a process stops where it comes to " ++ Line <- string:split(Errors, "\n", all)]),
    [{stops, same({0, Places}, {Status, Noted})},
     {reached, reached(explored(Text, Around), Places)},
     {'not reached', same(clean, result(explored(element(3, converted(Words, unreached(Source), Around)), Around)))}].

%% Whether some process comes to a stop of the library with this text.
stops_at(Wanted, Words, Source, Around) ->
    {_, 0, Text, _} = converted(["--strict" | Words], Source, Around),
    Report = explored(Text, Around),
    case [Line || "refusal " ++ Line <- string:split(Report, "\n", all), string:find(Line, Wanted) =/= nomatch] of
        [_ | _] -> passed;
        [] -> {failed, {Wanted, Report}}
    end.

explored(Text, {Program, Folder, _}) -> explorer:explore(Program, Folder, Text, ?DEPTH).

reached(Report, Places) ->
    Stops = [place(Line) || "refusal " ++ Line <- string:split(Report, "\n", all), string:find(Line, "ets:lookup('not read: ") =/= nomatch],
    case {Stops, Stops -- Places, explorer:errors(Report)} of
        {[_ | _], [], ["deadlock of P" ++ _]} -> passed;
        Other -> {failed, {Other, Report}}
    end.

result(Report) ->
    case string:find(Report, "\nresult: clean") of
        nomatch -> Report;
        _ -> clean
    end.

%% The source with a first process that never comes to what main/0 does, which the compiler does not know.
unreached(Source) ->
    [re:replace(Line, "^main\\(\\)", "never()", [{return, list}]) || Line <- Source] ++
        ["main() -> self() ! no, receive yes -> never(); no -> ok end."].

%% {Line, Function} of a line that ends as `2: text (in f/1)`, or with `at refused.erl:2 (in f/1)` and perhaps more.
place(Text) ->
    {match, [Line]} = re:run(Text, "(?:^:|\\.erl:)([0-9]+)", [{capture, all_but_first, list}]),
    {match, [Home]} = re:run(Text, "\\(in ([^)]*)\\)", [{capture, all_but_first, list}]),
    {list_to_integer(Line), Home}.
