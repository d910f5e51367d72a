%% The report for people.
-module(report_text).
-export([call/3, who/1, deed/1, identity/1, place/1, role/2, waits/2, stands/2]).
-export([head/5, sums/3, tail/6, doubts/1, schedule/1, limit/2, timeouts/2, race/1, earlier/1, overtakes/1, follower/2, transcript/3, brief/3]).
-include("report.hrl").

-define(GREATEST_COLUMN, 76).
%% What --nodes takes at most.
-define(GREATEST_LIMIT, 10000000).

%% A call as it is written in a source.
call(erlang, '!', [To, Message]) -> [report_term:text(To), " ! ", report_term:text(Message)];
call(erlang, Function, [{atom, _}, {atom, Name}, {list, Arguments, nil}])
  when Function =:= spawn; Function =:= spawn_link; Function =:= spawn_monitor ->
    [atom_to_list(Function), "(", started(Name, Arguments), ")"];
call(erlang, Function, Arguments) -> [function(Function), "(", arguments(Arguments), ")"];
call(Module, Function, Arguments) -> [function(Module), ":", function(Function), "(", arguments(Arguments), ")"].

function(Name) -> report_term:text({atom, Name}).

arguments(Terms) -> lists:join(",", [report_term:text(Term) || Term <- Terms]).

%% What a process begins with: a function and its arguments, a fun, a fun as a value, or a behaviour of a module.
started(Name, Arguments) -> begun(Name, Arguments, fun(Given) -> ["(", arguments(Given), ")"] end).

%% The arguments are shown by Shown(Arguments), where there is a function that has some.
begun(Name, Arguments, Shown) ->
    case report_begin:meant(Name, Arguments) of
        {value, Fun} -> report_term:text(Fun);
        {behaviour, Behaviour, Module} -> behaviour(Behaviour, Module);
        {call, Function, Given} ->
            case atom_to_list(Function) of
                "fun in " ++ _ = Fun -> Fun;
                _ -> [qualified(Function), Shown(Given)]
            end
    end.

behaviour(Behaviour, none) -> function(Behaviour);
behaviour(Behaviour, Module) -> [function(Behaviour), " ", function(Module)].

%% A function of another module has its name before it.
qualified(Name) ->
    case string:split(atom_to_list(Name), ":") of
        [Module, Function] when Module =/= "", Function =/= "" -> [function(list_to_atom(Module)), ":", function(list_to_atom(Function))];
        _ -> function(Name)
    end.

%% What happened in a step.
deed({call, Module, Function, Arguments, Answer} = Deed) ->
    case report_unread:what(Deed) of
        none -> [call(Module, Function, Arguments), answer(Function, Answer)];
        What -> ["comes to what is not read: ", hd(string:split(What, " at ", trailing))]
    end;
deed({receives, Term}) -> ["receives ", report_term:text(Term)];
deed(timeout) -> "times out";
deed({ends, Reason}) -> ["ends ", report_term:text(Reason)];
deed(runaway) -> "runs away";
deed({brings, Term}) -> ["brings ", report_term:text(Term)];
deed({exit, _, {message, Term}}) -> deed({brings, Term});
deed({down, _, {message, Term}}) -> deed({brings, Term});
deed({Kind, _, Term, {message, _}}) when Kind =:= alias; Kind =:= timer -> deed({brings, Term});
deed({exit, Reason, Fate}) -> ["exit signal ", report_term:text(Reason), " -> ", fate(Fate)];
deed({down, Reference, Fate}) -> ["signal of the watch ", report_term:text(Reference), " -> ", fate(Fate)];
deed({alias, Alias, Term, dropped}) -> [deed({brings, Term}), " -> dropped: the alias ", report_term:text(Alias), " has ended"];
deed({timer, Timer, Term, dropped}) -> [deed({brings, Term}), " -> dropped: the timer ", report_term:text(Timer), " was cancelled"].

%% The answer of a send is its message, and says nothing new.
answer(Send, {ok, _}) when Send =:= '!'; Send =:= send -> "";
answer(_, {ok, Term}) -> [" -> ", report_term:text(Term)];
answer(_, {refused, Text}) -> [" -> ", Text];
answer(_, {ends, Reason}) -> [" -> ends ", report_term:text(Reason)].

fate({ends, Reason}) -> ["ends ", report_term:text(Reason)];
fate(Fate) -> atom_to_list(Fate).

%% What a finding is.
identity({ends, Name, Reason}) -> [Name, " ends ", report_term:text(Reason)];
identity({deadlock, Names}) -> ["deadlock of ", lists:join(" ", Names)];
identity({unread_messages, Names}) -> ["unread messages of ", lists:join(" ", Names)];
identity({runaway, Name}) -> [Name, " runs away"];
identity({refusal, Name, Request, Deed}) -> [Name, " request ", integer_to_list(Request), " ", deed(Deed)].

%% What a process runs.
role(Name, Arguments) -> begun(Name, Arguments, fun(Given) -> ["/", integer_to_list(length(Given))] end).

%% Where something is in the source.
place(none) -> "";
place({library, Module}) -> ["(", Module, ")"];
place({both, Place, Callback}) -> [[[Text, ", "] || Text <- [lists:flatten(place(Place))], Text =/= ""], place(Callback)];
place({sent, none}) -> "";
place({sent, {library, Module}}) -> ["sent by ", Module];
place({sent, {_, _, _} = Callback}) -> ["sent ", place(Callback)];
place({sent, Place}) -> ["sent at ", place(Place)];
place({Where, {_, Function, Arity}, {File, Line}}) ->
    [atom_to_list(Where), " ", function(Function), "/", integer_to_list(Arity), " at ", place({File, Line})];
place({Where, {Module, Function, Arity}, none}) ->
    [atom_to_list(Where), " ", function(Module), ":", function(Function), "/", integer_to_list(Arity)];
place({File, Line}) -> [File, ":", integer_to_list(Line)].

%% ---- the report

%% The first line: what was explored, or which random schedules the errors are of.
head(Source, Delivery, _, _, {errors, Depth, Runs}) -> [Source, ": ", random(Depth, Runs), of_delivery(Delivery), "\n"];
head(Source, Delivery, Coverage, Reach, _) -> [Source, ": ", explored(Coverage, of_delivery(Delivery), Reach), "\n"].

random(Depth, Runs) -> [many(Runs, "random schedules"), " of at most ", steps(Depth)].

explored(["all" | _], Of, {complete, _, Count, What}) -> ["all schedules", Of, ", ", many(Count, What)];
explored(_, Of, {complete, Depth, Count, What}) -> ["all schedules of at most ", steps(Depth), Of, ", ", many(Count, What)];
explored(_, Of, {stopped, Depth, _}) -> ["not all schedules of at most ", steps(Depth), Of];
explored(_, Of, {stopped, _, _, Whole}) -> ["all schedules of at most ", steps(Whole), Of, ", and not all longer ones"].

%% Which schedules were followed, by when signals arrive in them.
of_delivery("at-once") -> " in which signals arrive at once";
of_delivery("any-delay") -> "".

steps(Count) -> many(Count, "steps").

many("1", What) -> ["1 ", lists:droplast(What)];
many(Count, What) -> [Count, " ", What].

%% How many errors count, how many refusals there are, and what more is counted; and the result, which is about schedules that deliver
%% signals so. What is taken as normal is counted where it is something, or the words of the command asked for it.
sums(Told, Delivery, {{Errors, Refusals, Normal}, Unread, Result}) ->
    More = [{", taken as normal ", Normal} || Told =:= "normal" orelse Normal > 0] ++ [{", not read ", Unread} || Unread =/= none],
    Counts = [{"errors ", Errors}, {", refusals ", Refusals} | More],
    [lists:append([What ++ integer_to_list(Count) || {What, Count} <- Counts]), ["result: ", result(Result, of_delivery(Delivery))]].

result({nothing_found, none}, _) -> "nothing found";
result({Result, none}, _) -> atom_to_list(Result);
result({Result, all}, Of) -> [atom_to_list(Result), ", all schedules", Of];
result({Result, {depth, Depth}}, _) -> [atom_to_list(Result), " to depth ", integer_to_list(Depth)].

%% The last lines: how many errors and refusals there are, and the result, as the program has them; in between how many
%% errors have no transcript; and below these what was not explored, where something was not, and what random schedules
%% say of that.
tail(Delivery, Coverage, Reach, Random, [Counts, Result], Folded) ->
    Of = of_delivery(Delivery),
    ["\n", Counts, "\n", folded(Folded), Result, "\n", unexplored(Coverage, Of, Reach, before(Random, Counts)), sampled(Random), delays(Delivery)].

%% How many errors the search found: none, where random schedules were followed after it.
before({errors, _, _}, _) -> "errors 0, ";
before(_, Counts) -> Counts.

sampled(none) -> "";
sampled({nothing, Depth, Runs}) -> [random(Depth, Runs), " were followed too, and none shows an error\n"];
sampled({errors, _, _}) -> "the errors are those of random schedules, and others may show more\n".

folded(0) -> "";
folded(1) -> "1 of the errors follows from another one (--unfold shows its events)\n";
folded(Count) -> [integer_to_list(Count), " of the errors follow from others (--unfold shows their events)\n"].

delays("at-once") -> "schedules in which signals arrive later were not explored (--any-delay)\n";
delays("any-delay") -> "".

unexplored(["all" | _], _, _, _) -> "";
unexplored(["limit", Depth, Most], _, {complete, Whole, _, _}, _) ->
    ["depth ", Depth, " has more than the ", many(Most, "nodes"), " that may be visited (--nodes N)\n",
     helps([without_tree(), fewer(), below(Whole), more(Most)])];
unexplored(["deepest", Depth, _], _, {complete, _, _, _}, _) ->
    ["no schedule is followed for more than ", steps(Depth), ": longer ones were not explored\n"];
unexplored(_, _, {complete, _, _, _}, _) -> "longer schedules were not explored\n";
unexplored([_, _, Most], _, {stopped, Depth, "node limit"}, _) ->
    ["there are more than the ", many(Most, "nodes"), " that may be visited to depth ", Depth, " (--nodes N)\n",
     helps([without_tree(), fewer(), lower(), more(Most)])];
unexplored(_, _, {stopped, Depth, Cause}, _) ->
    ["not all nodes were visited: ", Cause, " at depth ", Depth, "\n", helps([without_tree(), fewer(), lower()])];
unexplored([_, _, Most], Of, {stopped, _, "state limit", Whole}, Counts) ->
    ["there are more than the ", many(Most, "states"), " that may be found (--nodes N)\n", found(Whole, Of, Counts),
     helps([fewer(), below(Whole), more(Most)])];
unexplored(_, Of, {stopped, _, "memory", Whole}, Counts) ->
    ["memory ran out\n", found(Whole, Of, Counts), helps([fewer(), below(Whole)])].

%% What a search by states had found when it stopped.
found(Whole, Of, "errors 0," ++ _) -> ["no schedule of at most ", steps(Whole), Of, " shows an error, but longer ones may\n"];
found(Whole, Of, _) -> ["each error that a schedule of at most ", steps(Whole), Of, " shows is listed, but longer ones may show more\n"].

%% What makes a search come to its end: what helps most, and costs least, is first.
helps(Remedies) -> ["what helps, in this order: ", lists:join(", ", lists:append(Remedies)), "\n"].

without_tree() -> ["a search without --tree"].
fewer() -> ["fewer processes or messages", "--after-timeout MS where there are timeouts", "several small programs in the place of one"].
below(Whole) -> ["a --depth of at most " ++ Whole].
lower() -> ["a lower --depth"].
more(Most) -> ["a greater --nodes" || list_to_integer(Most) < ?GREATEST_LIMIT].

%% What makes the result doubtful, below it.
doubts(Lines) -> [["but: ", Line, "\n"] || Line <- Lines].

%% A schedule as the words with which it is shown again.
schedule(Schedule) -> ["  --replay \"", Schedule, "\"\n"].

%% That an error is there for a limit of the explorer (docs/LANGUAGE.md, "Evaluation"), and where that was met; with the
%% option that allows more, where the module was converted and there is more.
limit(none, _) -> "";
limit({Limit, Place}, IsConverted) ->
    ["  this is a limit of the explorer, not of Erlang: ", limit_in_words(Limit), where(Place),
     ["; --applications N allows more" || IsConverted, may_grow(Limit)], "\n"].

may_grow({applications, Allowed}) -> Allowed < 1000000;
may_grow(_) -> false.

limit_in_words({applications, Allowed}) ->
    ["a process may call functions of its module ", times(Allowed), " before it sends, receives or asks for anything"];
limit_in_words(nodes) -> "a term may have 10,000 nodes, which are its numbers, atoms, tuples, list cells and so on";
limit_in_words(bits) -> "an integer may have 64 bits";
limit_in_words(some) -> "a term may have 10,000 nodes, and an integer 64 bits".

%% (none where the machine does not take the module)
times(none) -> "only so many times";
times(1) -> "once";
times(Number) -> [in_thousands(Number), " times"].

in_thousands(Number) when Number < 1000 -> integer_to_list(Number);
in_thousands(Number) -> [in_thousands(Number div 1000), io_lib:format(",~3..0w", [Number rem 1000])].

where(none) -> "";
where({library, Module}) -> [" (in ", Module, ")"];
where(Place) -> [" (", place(Place), ")"].

%% The timeouts that an order takes, a line each, and how to explore without them. Another order may need none of them.
timeouts(Taken, IsConverted) ->
    [["  this order takes the timeout of ", integer_to_list(Time), " ms", at(Place), " (event ", integer_to_list(Event), ")",
      ["; --after-timeout " ++ integer_to_list(Time) ++ " explores without it" || IsConverted], "\n"] || {Time, Place, Event} <- Taken].

at(none) -> "";
at({library, Module}) -> [" in ", Module];
at({_, _, _} = Callback) -> [" ", place(Callback)];
at(Place) -> [" at ", place(Place)].

%% The race of an error: {First, Second, Instead}, where each of the two is {Event, Thing, Number, Place}, with the number that it
%% has in the report, or none.
race(none) -> "";
race({First, Second, Instead}) ->
    ["  race: ", moment(First), " before ", moment(Second), "; the other way round, and else in this order, ", instead(Instead), "\n"].

moment({Event, Thing, Number, Place}) -> [report_clause:text(Event, Thing), in_brackets([numbered(Number), moment_at(Place)])].

numbered(none) -> "";
numbered(Number) -> ["event ", integer_to_list(Number)].

moment_at({library, Module}) -> ["in ", Module];
moment_at(Place) -> place(Place).

in_brackets(Texts) ->
    case [Text || Text <- Texts, lists:flatten(Text) =/= ""] of
        [] -> "";
        Told -> [" (", lists:join(", ", Told), ")"]
    end.

instead(none) -> "this error does not come";
instead(Error) -> ["error ", integer_to_list(Error), " comes in its place"].

%% That no schedule shows an error in which signals arrive at once.
overtakes(true) -> "  only if signals overtake\n";
overtakes(false) -> "".

%% An error that another one comes after may follow from it.
earlier(none) -> "";
earlier({Error, Event}) -> io_lib:format("  comes after error ~w (event ~w)~n", [Error, Event]).

%% An error that follows from the one above it, in a line that says how.
follower(Title, Why) -> ["  and then: ", Title, ", ", follows(Why), "\n"].

follows({link, Name}) -> ["by the link to ", Name];
follows({watch, Name}) -> ["by the 'DOWN' of ", Name];
follows({trapped, Name}) -> ["by the 'EXIT' of ", Name];
follows({left, [Name]}) -> ["since ", Name, " has ended"];
follows({left, Names}) -> ["since ", lists:join(", ", lists:droplast(Names)), " and ", lists:last(Names), " have ended"].

%% A transcript: what the processes are, each event with its place, or a line for several, and who waits for ever where it is a
%% deadlock or of unread messages.
transcript(Finding, #{events := Events, places := Places} = Told, HasSteps) ->
    Shown = case HasSteps of true -> Events; false -> report_calls:folded(Events, Told) end,
    Width = lists:max([length(who(Who)) || Who <- waiters(Finding) ++ [Who || #event{who = Who} <- Events]]),
    Counted = lists:max([3 | [length(numbers(One)) || One <- Shown]]),
    Lines = [event(One, {Counted, Width}, Places) || One <- Shown],
    [cast(Told), in_columns(Lines ++ waiting(Finding, {Counted, Width}, Told))].

waiters({Kind, Names}) when Kind =:= deadlock; Kind =:= unread_messages -> Names;
waiters(_) -> ["P"].

cast(#{events := Events, roles := Roles}) ->
    Processes = [[Name, " is ", maps:get(Name, Roles)] || Name <- report_story:processes(Events), maps:is_key(Name, Roles)],
    Timers = [[Name, " is the timer #", Name] || Name <- report_story:timers(Events)],
    ["  where ", lists:join(", ", Processes ++ Timers), "\n"].

%% Numbers and names are in columns of these widths.
event(One, {Counted, Width}, Places) ->
    {Who, Text, Place} = shown(One, Places),
    {["  ", string:pad(numbers(One), Counted, leading), "  ", string:pad(who(Who), Width), "  ", Text], Place}.

shown(#event{number = Number, who = Who, deed = Deed}, Places) -> {Who, deed(Deed), maps:get(Number, Places, none)};
shown({_, _, Who, Text, Place}, _) -> {Who, Text, Place}.

numbers(#event{number = Number}) -> integer_to_list(Number);
numbers({First, Last, _, _, _}) -> lists:concat([First, "-", Last]).

who({From, To}) -> From ++ ">" ++ To;
who(Name) -> Name.

%% Who waits where for ever, and with which messages that it does not take.
waiting({Kind, Names}, {Counted, Width}, Told) when Kind =:= deadlock; Kind =:= unread_messages ->
    [{[lists:duplicate(Counted + 4, $\s), string:pad(Name, Width), "  ", waits(Name, Told)], stands(Name, Told)} || Name <- Names];
waiting(_, _, _) -> [].

waits(Name, #{waits := Waits}) ->
    {Name, Mailbox} = lists:keyfind(Name, 1, Waits),
    ["waits for ever, mailbox ", report_term:text_of_items(Mailbox)].

stands(Name, #{stands := Stands}) -> maps:get(Name, Stands, none).

%% Lines with their places in one column, a little further right than most lines reach.
in_columns(Lines) ->
    Flat = [{lists:flatten(Text), lists:flatten(place(Place))} || {Text, Place} <- Lines],
    Column = lists:min([?GREATEST_COLUMN, 2 + lists:max([0 | [length(Text) || {Text, _} <- Flat]])]),
    [line(Text, Where, Column) || {Text, Where} <- Flat].

line(Text, "", _) -> [Text, "\n"];
line(Text, Where, Column) -> [Text, lists:duplicate(max(2, Column - length(Text)), $\s), Where, "\n"].

%% A finding in short, with the place of its last event, from which a refused call comes.
brief(Title, Schedule, Told) -> ["\n", in_columns([{Title, last_place(Told)}]), schedule(Schedule)].

last_place(#{events := []}) -> none;
last_place(#{events := Events, places := Places}) -> maps:get((lists:last(Events))#event.number, Places, none).
