%% From the files of an exploration to what people read.
%%
%% The folder of the exploration has the report of the program as terms (`report`), or the transcript of a schedule, the
%% module (`module.core`), which has the lines of its source as annotations, and where it was converted what makes its verdict doubtful (`doubts`), and where its functions and their clauses are
%% (`places`). Where signals took any time it may have the report
%% of the schedules in which they arrive at once (`prompt`). Where a search stopped early without an error, and random
%% schedules show some, `report` is of these, and that of the search is there too (`before`); where they show none, theirs
%% is (`sample`).
-module(report_main).
-export([main/1]).
-include("report.hrl").

%% What a report is made with: the name of the source, when signals arrive, the module that the machine plays, what the first
%% process runs, the folders of drawings and of the page, and the options of what is printed: unfold, steps, chart and mermaid.
-record(work, {folder, source, delivery, module, first, drawings, page, options}).

%% A finding with what it is, all that is shown of its transcript, and whether it needs that signals overtake.
-record(finding, {kind, number, identity, schedule, told, overtakes}).

main([Folder, Source, Delivery, Drawings, Page | Options]) ->
    [ok = io:setopts(Device, [{encoding, unicode}]) || Device <- [standard_io, standard_error]],
    load(),
    asked(#work{folder = Folder, source = filename:basename(Source), delivery = Delivery, drawings = Drawings, page = Page,
                options = Options}).

is_asked(Option, #work{options = Options}) -> lists:member(Option, Options).

%% Compiles a small module and reads a small report, so that what does it is loaded before it is asked for: until then there is
%% nothing else to do.
load() ->
    _ = report_reader:report("{explored,0,at_once,{states,1,0}}.\n{counts,0,0,0}.\n{result,clean,all}.\n"),
    {ok, _, _, _} = report_instrument:module("module 'm' ['main'/0] attributes [] 'main'/0 = fun () -> 'ok' end", "m.erl", #{}).

%% Does what the lines of standard input ask for: first, if at all, the spelling of terms, and at last a report.
asked(Work) ->
    case io:get_line("") of
        "normal\n" -> spelled(Work#work.folder), asked(Work);
        "explore " ++ Words ->
            [Sums | Coverage] = lists:reverse(string:lexemes(Words, " \n")),
            explored(prepared(Work), lists:reverse(Coverage), Sums);
        "replay\n" -> replayed(prepared(Work));
        eof -> ok
    end.

%% With the module to be played, or none where the machine does not take it, and with what its first process runs.
prepared(#work{folder = Folder, source = Source} = Work) ->
    case report_instrument:module(read(filename:join(Folder, "module.core")), Source, places(Folder)) of
        {ok, Module, First, Code} -> report_machine:load(Code), Work#work{module = Module, first = First};
        {error, Reason} ->
            complain("there are no lines, since the Erlang machine does not take the module: ~0tp", [Reason]),
            Work#work{module = none, first = "main/0"}
    end.

%% The places of functions and their clauses, where the module was converted.
places(Folder) ->
    case file:consult(filename:join(Folder, "places")) of
        {ok, Places} -> maps:from_list(Places);
        _ -> #{}
    end.

read(File) ->
    {ok, Bytes} = file:read_file(File),
    unicode:characters_to_list(Bytes).

complain(Format, Arguments) -> io:format(standard_error, "explore: " ++ Format ++ "~n", Arguments).

%% ---- terms that were typed

%% Writes the terms of the file `normal`, each with a zero after it there, into the file `spelled` in the spelling of the
%% program, a line each, and prints a line when that is done. A text that is no term has status 64.
spelled(Folder) ->
    Texts = lists:droplast(string:split(read(filename:join(Folder, "normal")), [0], all)),
    Module = try report_instrument:read(read(filename:join(Folder, "module.core"))) catch error:_ -> none end,
    Spelled = [[spelling(Text, Module), "\n"] || Text <- Texts],
    ok = file:write_file(filename:join(Folder, "spelled"), unicode:characters_to_binary(Spelled)),
    print("spelled\n").

spelling(Text, Module) ->
    case report_spelling:spelled(Text, Module) of
        {ok, Spelling} -> Spelling;
        {no_term, Place} ->
            complain("\"~ts\" is no term: see its character ~w. --normal takes a term as the report shows it: "
                     "shutdown, {shutdown,1}, 'two words', [1,2], P.3", [Text, Place]),
            halt(64);
        {not_there, Name} ->
            complain("--normal cannot tell \"~ts\" by its name: write it as --raw shows it", [Name]),
            halt(64)
    end.

%% ---- one schedule

replayed(Work) ->
    Told = played(Work, report_reader:transcript(read(filename:join(Work#work.folder, "report")))),
    print(order(Work, replay, Told)),
    draw(Work, "replay", report_story:schedule(maps:get(events, Told)), replay, Told),
    disagreements([Told]).

%% ---- an exploration

explored(Work, Coverage, Sums) ->
    {First, All, Below, Last} = report_reader:report(read(filename:join(Work#work.folder, "report"))),
    {Reach, Random} = reaches(Work, First),
    Found = list_to_tuple(Below),
    {Findings, Stops, Deadlocks} = report_unread:sorted(All, fun(Place) -> element(1, element(Place, Found)) end),
    Prompt = prompt(Work),
    {Errors, Others} = lists:partition(fun(#finding{kind = Kind}) -> Kind =:= error end,
                                       [finding(Work, element(Place, Found), Finding, Prompt) || {Place, Finding} <- Findings]),
    Groups = grouped(Errors, is_asked("unfold", Work)),
    Each = [{Number, Identity} || {Cause, Followers} <- Groups, #finding{number = Number, identity = Identity} <- [Cause | firsts(Followers)]],
    Races = races(Work, [Cause || {Cause, _} <- Groups], {Each, [Identity || #finding{kind = normal, identity = Identity} <- Others], hd(Coverage) =:= "all"}),
    Head = report_unread:head(Stops, report_text:head(Work#work.source, Work#work.delivery, Coverage, Reach, Random)),
    print(Head),
    Shown = [error(Work, Cause, Followers, Each, Race) || {{Cause, Followers}, Race} <- lists:zip(Groups, Races)],
    Briefs = [report_text:brief(title(Other), Other#finding.schedule, Other#finding.told) || Other <- Others],
    Reached = [unread(Stop) || Stop <- Stops],
    Folded = length(lists:append([Followers || {_, Followers} <- Groups])),
    Told = report_text:sums(Sums, Work#work.delivery, report_unread:sums(Findings, Stops, Last)),
    Tail = [Briefs, Reached, report_text:tail(Work#work.delivery, Coverage, Reach, Random, Told, Folded),
            report_unread:below(Stops, Deadlocks), report_text:doubts(doubts(Work))],
    print(Tail),
    [page(Work, {Head, Tail}, Shown) || Work#work.page =/= ""],
    disagreements([One || #finding{told = One} <- Errors ++ Others] ++ [played(Work, element(1, element(Place, Found))) || {_, Place, _} <- Stops]).

%% How far the search came, and what random schedules say beside it: {errors, Depth, Runs}, where the report is of these,
%% {nothing, Depth, Runs}, or none.
reaches(#work{folder = Folder}, {random, Depth, Runs}) ->
    {Reach, _, _, _} = report_reader:report(read(filename:join(Folder, "before"))),
    {Reach, {errors, Depth, Runs}};
reaches(#work{folder = Folder}, Reach) ->
    File = filename:join(Folder, "sample"),
    case filelib:is_file(File) of
        true -> {{random, Depth, Runs}, _, _, _} = report_reader:report(read(File)), {Reach, {nothing, Depth, Runs}};
        false -> {Reach, none}
    end.

%% The order of events, as lines or as a diagram.
order(Work, Finding, Told) ->
    case is_asked("mermaid", Work) of
        true -> report_mermaid:text(report_rows:rows(Finding, Told), Told);
        false -> report_text:transcript(Finding, Told, is_asked("steps", Work))
    end.

%% What is not read, with the shortest schedule that reaches it.
unread({What, _, Schedule}) -> [report_unread:text(What), report_text:schedule(Schedule)].

doubts(#work{folder = Folder}) ->
    File = filename:join(Folder, "doubts"),
    [Line || filelib:is_file(File), Line <- string:split(read(File), "\n", all), Line =/= ""].

%% What schedules show in which signals arrive at once: what the errors are, or any where these were not explored to
%% their end.
prompt(#work{folder = Folder}) ->
    File = filename:join(Folder, "prompt"),
    case filelib:is_file(File) of
        true -> {_, All, _, _} = report_reader:report(read(File)), [Identity || {_, _, Identity, _} <- All];
        false -> any
    end.

finding(Work, {Events, Waits}, {Kind, Number, Identity, Schedule}, Prompt) ->
    Told = (played(Work, Events))#{waits => Waits},
    #finding{kind = Kind, number = Number, identity = Identity, schedule = Schedule, told = Told,
             overtakes = Prompt =/= any andalso not lists:member(Identity, Prompt)}.

%% The errors in groups, each that has a transcript with those that follow from it, {Cause, [{Follower, Why}]}. They are
%% numbered in this order, which is the same where each has its transcript.
grouped(Errors, Unfold) ->
    Groups = report_cause:groups([{Number, Identity, Told, Overtakes} ||
        #finding{number = Number, identity = Identity, told = Told, overtakes = Overtakes} <- Errors]),
    Order = lists:append([[Key | firsts(Followers)] || {Key, Followers} <- Groups]),
    New = maps:from_list([{Key, (lists:keyfind(Key, #finding.number, Errors))#finding{number = Number}} || {Number, Key} <- lists:enumerate(Order)]),
    case Unfold of
        true -> [{maps:get(Key, New), []} || Key <- Order];
        false -> [{maps:get(Key, New), [{maps:get(Follower, New), Why} || {Follower, Why} <- Followers]} || {Key, Followers} <- Groups]
    end.

firsts(Pairs) -> [First || {First, _} <- Pairs].

title(#finding{kind = Kind, number = Number, identity = Identity}) ->
    [atom_to_list(Kind), " ", integer_to_list(Number), ": ", report_text:identity(Identity)].

%% An error with all that leads to it, and a line for each that follows from it: printed, and as a page has it.
error(Work, #finding{number = Number, identity = Identity, told = Told} = Error, Followers, Each, Race) ->
    Notes = [report_text:overtakes(Error#finding.overtakes), report_text:limit(report_story:limit(Told), is_converted(Work)),
             report_text:timeouts(report_story:timeouts(Told), is_converted(Work)), report_text:race(Race),
             report_text:schedule(Error#finding.schedule),
             report_text:earlier(report_story:earlier(Identity, Each, maps:get(events, Told)))],
    Below = [report_text:follower(title(Follower), Why) || {Follower, Why} <- Followers],
    print(["\n", title(Error), "\n", Notes, order(Work, Identity, Told), Below]),
    draw(Work, ["error_", integer_to_list(Number)], title(Error), Identity, Told),
    Drawing = [drawing(Work, title(Error), report_rows:rows(Identity, Told), Told) || Work#work.page =/= ""],
    {Number, title(Error), Notes, Told, Below, Drawing}.

%% Whether the module was converted, so that --after-timeout and --applications may be given.
is_converted(#work{source = Source}) -> filename:extension(Source) =/= ".core".

%% All that is shown of a transcript: its events, their places, and what the processes are; to that come, of a finding, the
%% processes that wait with what is in their mailboxes.
played(Work, Events) ->
    Played = case Work#work.module of
        none -> #{lines => #{}, stands => #{}, limits => #{}, times => #{}, timed => [], differs => []};
        Module -> report_machine:play(Module, Events)
    end,
    Played#{events => Events, places => report_story:places(Events, maps:get(lines, Played)),
            roles => report_story:roles(Events, Work#work.first), module => Work#work.module}.

%% The race of each error, as report_text:race has it, or none.
races(#work{folder = Folder, delivery = Delivery} = Work, Errors, Known) ->
    Replays = report_replays:new(Folder),
    How = {case Delivery of "at-once" -> at_once; "any-delay" -> any_delay end, fun(Steps) -> report_replays:replay(Steps, Replays) end},
    [begin report_replays:for_one(Left, Replays), race(Work, Error, Known, How) end ||
        {Left, Error} <- lists:zip(lists:seq(length(Errors), 1, -1), Errors)].

race(Work, #finding{identity = Identity, told = #{events := Events, places := Places, timed := Timed}}, Known, How) ->
    case report_race:race(Identity, {Events, Timed}, Known, How) of
        {{#event{number = Number} = First, Thing}, {Second, Other, Run}, Instead, Own} ->
            {{First, Thing, Number, maps:get(Number, Places, none)}, second(Work, Second, Other, Run, {Events, Places, Own}), Instead};
        none -> none
    end.

%% The second event of a race: one of the report, one that comes after these, or one of another run.
second(_, #event{number = Number} = Event, Thing, own, {Events, Places, _}) when Number =< length(Events) ->
    {Event, Thing, Number, maps:get(Number, Places, none)};
second(Work, #event{number = Number} = Event, Thing, Run, {_, _, Own}) ->
    #{places := Places} = played(Work, case Run of own -> Own; _ -> Run end),
    {Event, Thing, none, maps:get(Number, Places, none)}.

draw(Work, Name, Title, Finding, Told) ->
    Rows = report_rows:rows(Finding, Told),
    [print(["\n", report_chart:text(Rows)]) || is_asked("chart", Work)],
    [written(Work#work.drawings, [Name, ".svg"], "drawn", drawing(Work, Title, Rows, Told)) || Work#work.drawings =/= ""].

drawing(Work, Title, Rows, Told) -> report_drawing:text([Work#work.source, ", ", Title], Rows, Told).

%% Writes a file of a folder, and says so.
written(Folder, Name, What, Text) ->
    File = filename:join(Folder, lists:flatten(Name)),
    case filelib:ensure_dir(File) =:= ok andalso file:write_file(File, unicode:characters_to_binary(Text)) of
        ok -> print(["  ", What, ": ", File, "\n"]);
        _ -> complain("~ts cannot be written", [File])
    end.

%% The report as a page, with the source of each file that an error comes to.
page(Work, Around, Errors) ->
    Places = [Place || {_, _, _, #{places := Places}, _, _} <- Errors, Place <- maps:values(Places)],
    Names = lists:usort([File || Place <- Places, {File, _} <- [report_page:in_source(Place)]]),
    Own = [Work#work.source || lists:member(Work#work.source, Names)],
    Sources = [{Name, Lines} || Name <- Own ++ (Names -- Own), Lines <- source(Name, Work)],
    written(Work#work.page, "index.html", "page", report_page:text(Work#work.source, Around, Errors, Sources)).

%% The lines of a file, where it is one of those that were given or beside one, or in a folder that was given, or in a folder
%% src beside that.
source(Name, #work{folder = Folder}) ->
    Given = lists:droplast(string:split(read(filename:join(Folder, "sources")), [0], all)),
    Named = [One || One <- Given, filename:basename(One) =:= Name],
    Inside = [filename:join(One, Name) || One <- lists:flatmap(fun folders_of_sources/1, Given)],
    case [File || File <- Named ++ Inside, filelib:is_regular(File)] of
        [File | _] -> {ok, Bytes} = file:read_file(File), [string:split(string:trim(text_of(Bytes), trailing, "\n"), "\n", all)];
        [] -> []
    end.

%% Where the sources may be that go with a file or a folder which was given, such as src/ beside ebin/.
folders_of_sources(Given) ->
    Above = filename:dirname(Given),
    [Given, Above, filename:join(Above, "src"), filename:join([Above, "..", "src"])].

%% The characters of a source, in UTF-8 or else in Latin-1.
text_of(Bytes) ->
    case unicode:characters_to_list(Bytes) of
        Text when is_list(Text) -> Text;
        _ -> binary_to_list(Bytes)
    end.

%% The machine is a second witness, beside the program that explored: where they differ one of them is wrong.
disagreements(Told) ->
    case lists:usort(lists:flatmap(fun(One) -> maps:get(differs, One) end, Told)) of
        [] -> ok;
        Texts ->
            print(["\nTHE ERLANG MACHINE DISAGREES with what was explored; please report this with the module:\n",
                   [["  ", Text, "\n"] || Text <- Texts]])
    end.

print(Text) -> io:put_chars(standard_io, Text).
