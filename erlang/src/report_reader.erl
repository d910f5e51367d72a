%% The report of the program, which is terms of Erlang (docs/PROGRAM.md, "The report as terms"), and the lines of a
%% transcript, read.
-module(report_reader).
-export([report/1, transcript/1]).
-include("report.hrl").

%% ---- a report

%% How far the exploration came; the findings, errors before refusals and these before what is taken as normal, each {Kind,
%% Number, Identity, Schedule}; what is below each of these, {Events, Waits}, where the processes that wait have the list of messages
%% in their mailboxes, the oldest first; and the sums, {Errors, Refusals, Normal}, with the result.
report(Text) ->
    [First | Terms] = terms(Text),
    {Findings, Below, [{counts, Errors, Refusals, Normal}, Result]} = findings(Terms, [], []),
    {reach(First), Findings, Below, {{Errors, Refusals, Normal}, result(Result)}}.

%% The terms of a text, each with a point after it. (file:consult/1 gives the same, and takes longer.)
terms(Text) ->
    case erl_scan:tokens([], Text, 1) of
        {done, {ok, Tokens, _}, Rest} -> {ok, Term} = erl_parse:parse_term(Tokens), [Term | terms(Rest)];
        _ -> []
    end.

%% {complete, Depth, Count, What}, with how many there are of what, "nodes" or "states"; {stopped, Depth, Cause} of the tree;
%% {stopped, Depth, Cause, Whole} of a search by states, which followed all schedules of at most Whole steps; {random, Depth,
%% Runs} of so many random schedules. The numbers are texts.
reach({explored, Depth, _, {stopped, Cause}}) -> {stopped, digits(Depth), cause(Cause)};
reach({explored, Depth, _, {stopped, Cause, Whole}}) -> {stopped, digits(Depth), cause(Cause), digits(Whole)};
reach({explored, Depth, _, {What, Count, _}}) -> {complete, digits(Depth), digits(Count), atom_to_list(What)};
reach({sampled, Depth, Runs, _}) -> {random, digits(Depth), digits(Runs)}.

digits(Number) -> integer_to_list(Number).

cause(node_limit) -> "node limit";
cause(state_limit) -> "state limit";
cause(memory) -> "memory".

%% The result, and which schedules it is about: all, {depth, Depth}, or none where the search stopped, or they are random.
result({result, Result, Reach}) -> {Result, Reach};
result({result, Result}) -> {Result, none}.

findings([{Kind, Number, Identity, Schedule} | Terms], Findings, Below) when Kind =:= error; Kind =:= refusal; Kind =:= normal ->
    {Events, Rest} = lists:splitwith(fun(Term) -> element(1, Term) =:= event end, Terms),
    {Waits, Others} = lists:splitwith(fun(Term) -> element(1, Term) =:= waits end, Rest),
    Under = {[event(Event) || Event <- Events], [{Name, {list, wholes(Messages), nil}} || {waits, Name, Messages} <- Waits]},
    findings(Others, [{Kind, Number, identity(Identity), Schedule} | Findings], [Under | Below]);
findings(Terms, Findings, Below) -> {lists:reverse(Findings), lists:reverse(Below), Terms}.

%% {ends, Process, Reason}, {deadlock, Processes}, {unread_messages, Processes}, {runaway, Process}, or {refusal, Process,
%% Request, Call} with a call as in events.
identity({ends, Name, Reason}) -> {ends, Name, whole(Reason)};
identity({deadlock, Names}) -> {deadlock, Names};
identity({unread, Names}) -> {unread_messages, Names};
identity({runs_away, Name}) -> {runaway, Name};
identity({refused, Name, Request, Call, Rule}) -> {refusal, Name, Request, called(Call, {refused, why(Rule)})}.

event({event, Number, Step, Deed}) -> #event{number = Number, who = who(Step), deed = done(Deed)}.

done({answers, Call, Value}) -> called(Call, {ok, whole(Value)});
done({refused, Call, Why}) -> called(Call, {refused, why(Why)});
done({ends_by, Call, Reason}) -> called(Call, {ends, whole(Reason)});
done({receives, Message}) -> {receives, whole(Message)};
done(times_out) -> timeout;
done({ends, Reason}) -> {ends, whole(Reason)};
done(runs_away) -> runaway;
done({brings, Message}) -> {brings, whole(Message)};
done({exit, Reason, Fate}) -> {exit, whole(Reason), became(Fate)};
done({down, Reference, Fate}) -> {down, whole(Reference), became(Fate)};
done({alias, Reference, Message, Fate}) -> {alias, whole(Reference), whole(Message), became(Fate)};
done({timer, Reference, Message, Fate}) -> {timer, whole(Reference), whole(Message), became(Fate)}.

called({call, Module, Function, Arguments}, Answer) -> {call, list_to_atom(Module), list_to_atom(Function), wholes(Arguments), Answer}.

%% Why a call was refused, as a transcript has it.
why(Why) when is_atom(Why) -> atom_to_list(Why);
why({rule, Number, Name, Owner}) -> lists:append(["badarg (", digits(Number), " ", atom_to_list(Name), [", owner " ++ Owner || Owner =/= none], ")"]).

became({message, Message}) -> {message, whole(Message)};
became({ends, Reason}) -> {ends, whole(Reason)};
became(Fate) -> Fate.

wholes(Texts) -> [whole(Text) || Text <- Texts].

%% ---- a transcript

%% The events of its lines.
transcript(Text) -> [line(Line) || Line <- string:split(Text, "\n", all), Line =/= ""].

line(Line) ->
    [Number, Rest] = string:split(Line, " "),
    [Who, Deed] = string:split(Rest, " "),
    #event{number = list_to_integer(Number), who = who(Who), deed = deed(Deed)}.

who(Text) ->
    case string:split(Text, ">") of
        [From, To] -> {From, To};
        [Name] -> Name
    end.

deed("receives " ++ Text) -> {receives, whole(Text)};
deed("times out") -> timeout;
deed("ends " ++ Text) -> {ends, whole(Text)};
deed("runs away") -> runaway;
deed("brings " ++ Text) ->
    case report_term:read(Text) of
        {Message, " by alias " ++ By} -> by(alias, Message, By);
        {Message, " by timer " ++ By} -> by(timer, Message, By);
        {Message, ""} -> {brings, Message}
    end;
deed("exit " ++ Text) ->
    {Reason, " -> " ++ Fate} = report_term:read(Text),
    {exit, Reason, fate(Fate)};
deed("down " ++ Text) ->
    {Reference, " -> " ++ Fate} = report_term:read(Text),
    {down, Reference, fate(Fate)};
deed(Text) ->
    {Module, Function, Arguments, " -> " ++ Answer} = call(Text),
    {call, Module, Function, Arguments, answer(Answer)}.

%% A message by an alias or of a timer: what became of it is said where it did not come into the mailbox.
by(Kind, Message, Text) ->
    case report_term:read(Text) of
        {Reference, ""} -> {Kind, Reference, Message, {message, Message}};
        {Reference, " -> " ++ Fate} -> {Kind, Reference, Message, fate(Fate)}
    end.

fate("ends " ++ Text) -> {ends, whole(Text)};
fate("ignored") -> ignored;
fate("dropped") -> dropped;
fate(Text) -> {message, whole(Text)}.

answer("badarg" ++ _ = Text) -> {refused, Text};
answer("noproc") -> {refused, "noproc"};
answer("ends " ++ Text) -> {ends, whole(Text)};
answer(Text) -> {ok, whole(Text)}.

call(Text) ->
    [Module, Rest] = string:split(Text, ":"),
    {Function, "(" ++ Behind} = lists:splitwith(fun(C) -> C =/= $( end, Rest),
    {Arguments, Answer} = report_term:read_arguments(Behind),
    {list_to_atom(Module), list_to_atom(Function), Arguments, Answer}.

whole(Text) -> {Term, []} = report_term:read(Text), Term.
