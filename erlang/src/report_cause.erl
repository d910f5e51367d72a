%% Which errors follow from others, as the transcripts of their least schedules show it.
%%
%% An error B follows from an error A where A's end is an event of B's own schedule, and a signal of that end was the last
%% that B's process took. Or B is a deadlock of processes that are left over. Each schedule here is the least that shows its
%% error, of a tree the least that was visited. So no shorter one shows B without A. A longer one may: then B is still there
%% when A is repaired, and is listed by itself. Where it is not plain that B follows from A, it does not count as such.
-module(report_cause).
-export([groups/1]).
-include("report.hrl").

%% An error is {Key, Identity, Told, Overtakes}: its key, what it is, all that is shown of its transcript, and whether it needs
%% that signals overtake. This gives the keys in groups, {Key, Followers}: each cause with the errors that follow from it,
%% {Key, Why}, those with shorter schedules first. A cause comes after those that its schedule shows on its way.
groups(Errors) ->
    Sorted = lists:sort(fun(A, B) -> length_of(A) =< length_of(B) end, Errors),
    Roots = lists:foldl(fun(Error, Found) -> Found#{key(Error) => root(Error, Errors, Found)} end, #{}, Sorted),
    Keys = lists:foldl(fun(Error, Placed) -> placed(Error, Errors, Roots, Placed) end, [], Errors),
    [{Key, [{key(Error), Why} || Error <- Sorted, {Root, Why} <- [maps:get(key(Error), Roots)], Root =:= Key, Why =/= none]} ||
        Key <- lists:reverse(Keys)].

key({Key, _, _, _}) -> Key.

events({_, _, #{events := Events}, _}) -> Events.

%% How long a schedule is. A deadlock, and what is unread, is there after the last end, which is an error of as many events.
length_of({_, Identity, _, _} = Error) -> {length(events(Error)), lists:member(element(1, Identity), [deadlock, unread_messages])}.

%% The first cause of an error, with why it follows: {Key, Why}. It is itself one where Why is none. The roots of errors with
%% shorter schedules are known.
root(Error, Errors, Known) ->
    case cause(Error, Errors) of
        {Why, Causes} ->
            case lists:usort([element(1, maps:get(key(Cause), Known)) || Cause <- Causes]) of
                [Root] -> {Root, Why};
                _ -> {key(Error), none}
            end;
        none -> {key(Error), none}
    end.

%% The causes that are placed, the last one first, with that of an error, and before it that of what is on its way.
placed(Error, Errors, Roots, Placed) ->
    {Key, _} = maps:get(key(Error), Roots),
    case lists:member(Key, Placed) of
        true -> Placed;
        false ->
            Cause = lists:keyfind(Key, 1, Errors),
            [Key | lists:foldl(fun(Other, Before) -> placed(Other, Errors, Roots, Before) end, Placed, on_the_way(Cause, Errors))]
    end.

on_the_way({_, Identity, _, _} = Error, Errors) ->
    case report_story:earlier(Identity, [{Key, Other} || {Key, Other, _, _} <- shorter(Error, Errors)], events(Error)) of
        {Key, _} -> [lists:keyfind(Key, 1, Errors)];
        none -> []
    end.

%% A cause has a shorter schedule, since it is shown on the way of what follows. So there is no circle of causes.
shorter(Error, Errors) -> [Other || Other <- Errors, length_of(Other) < length_of(Error)].

%% ---- why an error follows

%% Why an error follows, and from which others: {Why, Errors}, or none.
cause({_, Identity, Told, Overtakes} = Error, Errors) ->
    case why(Identity, Told) of
        {Why, Ends} ->
            Causes = [Other || {_, End, _, _} = Other <- shorter(Error, Errors), lists:member(End, Ends)],
            IsPlain = length(Causes) =:= length(Ends) andalso has_no_limit(Why, Told)
                andalso (not Overtakes orelse lists:all(fun(Cause) -> element(4, Cause) end, Causes)),
            if IsPlain -> {Why, Causes}; true -> none end;
        none -> none
    end.

%% A limit of the explorer has to be told, but one that a signal brings is told of the end that the signal is of.
has_no_limit({link, _}, _) -> true;
has_no_limit(_, Told) -> report_story:limit(Told) =:= none.

%% What an error follows from, {Why, Ends}, where these ends are errors.
why({deadlock, Names}, Told) -> left_over(Names, Told);
why({ends, Name, Reason}, #{events := Events}) ->
    {Before, [Last]} = lists:split(length(Events) - 1, Events),
    case Last of
        #event{who = {From, Name}, deed = {exit, Reason, {ends, Reason}}} -> linked(From, Name, Reason, Before);
        #event{who = Name} -> told(Name, Reason, Before);
        _ -> none
    end;
why(_, _) -> none.

%% The exit signal of an end, by a link.
linked(From, Name, Reason, Before) ->
    case is_told_of(From, Name, Reason, Before) andalso is_of_end(From, Name, Before) of
        true -> {{link, From}, [{ends, From, Reason}]};
        false -> none
    end.

%% Whether a process has ended so, and the other one did not ask for it by exit/2.
is_told_of(From, Name, Reason, Before) ->
    lists:any(fun(Event) -> lists:member({ends, From, Reason}, report_story:shown(Event)) end, Before)
        andalso asked(Name, From, Before) =:= 0.

%% How often a process called exit/2 of another one.
asked(Name, Other, Before) ->
    length([N || #event{number = N, who = Who, deed = {call, erlang, exit, [{pid, To}, _], {ok, _}}} <- Before, Who =:= Name, To =:= Other]).

%% Whether an exit signal that arrives after these events is of an end: those of exit/2 that the sender called before have
%% arrived, since the signals of one process to another arrive in their order.
is_of_end(From, Name, Before) ->
    length([N || #event{number = N, who = Who, deed = {exit, _, _}} <- Before, Who =:= {From, Name}]) >= asked(From, Name, Before).

%% The message of an end that a process took last. It ends on it where it did nothing else in between, or ends with the same
%% reason or with what it took.
told(Name, Reason, Before) ->
    Turns = lists:reverse([Event || #event{who = Who} = Event <- Before, Who =:= Name]),
    case lists:splitwith(fun(#event{deed = Deed}) -> not is_wait(Deed) end, Turns) of
        {Since, [#event{number = Number, deed = {receives, Message}} | _]} ->
            Found = brought(Name, Message, [Event || Event <- Before, Event#event.number < Number]),
            case Found =/= none andalso (Since =:= [] orelse is_passed_on(Message, Reason)) of
                true -> Found;
                false -> none
            end;
        _ -> none
    end.

is_wait({receives, _}) -> true;
is_wait(timeout) -> true;
is_wait(_) -> false.

%% Whether an end has the reason that a message tells, or has the message in its reason.
is_passed_on({tuple, Parts} = Message, Reason) -> Reason =:= lists:last(Parts) orelse contains(Reason, Message).

contains(Term, Term) -> true;
contains({tuple, Terms}, Sought) -> lists:any(fun(Term) -> contains(Term, Sought) end, Terms);
contains({list, Terms, Tail}, Sought) -> contains({tuple, [Tail | Terms]}, Sought);
contains(_, _) -> false.

%% The end that brought a message to a process, where one did and nothing else brought the same.
brought(Name, Message, Events) ->
    case [Event || #event{who = {_, To}, deed = Deed} = Event <- Events, To =:= Name, carries(Deed, Message)] of
        [#event{number = Number, who = {From, _}, deed = Deed}] ->
            Before = [Event || Event <- Events, Event#event.number < Number],
            of_end(Deed, Message, From, Name, Before);
        _ -> none
    end.

carries({brings, Message}, Message) -> true;
carries({exit, _, {message, Message}}, Message) -> true;
carries({down, _, {message, Message}}, Message) -> true;
carries({_, _, _, {message, Message}}, Message) -> true;
carries(_, _) -> false.

of_end({down, _, _}, {tuple, [{atom, 'DOWN'}, _, _, _, Reason]}, From, Name, Before) ->
    case is_told_of(From, Name, Reason, Before) of
        true -> {{watch, From}, [{ends, From, Reason}]};
        false -> none
    end;
of_end({exit, Reason, _}, {tuple, [{atom, 'EXIT'}, {pid, From}, Reason]}, From, Name, Before) ->
    case is_told_of(From, Name, Reason, Before) andalso is_of_end(From, Name, Before) of
        true -> {{trapped, From}, [{ends, From, Reason}]};
        false -> none
    end;
of_end(_, _, _, _, _) -> none.

%% ---- processes that are left over

%% Processes wait for who began them, which is gone: each has an empty mailbox, and they have sent each other nothing, so that
%% none of them waits for another one.
left_over(Names, #{events := Events, waits := Waits}) ->
    Began = [{Child, Who} || #event{who = Who} = Event <- Events, {Child, _} <- report_story:spawned(Event)],
    Parents = lists:usort([proplists:get_value(Name, Began, none) || Name <- Names]),
    Ends = [End || Event <- Events, {ends, Name, _} = End <- report_story:shown(Event), lists:member(Name, Parents)],
    Idle = lists:all(fun(Name) -> lists:keyfind(Name, 1, Waits) =:= {Name, {list, [], nil}} end, Names),
    Talk = [Event || #event{who = {From, To}, deed = Deed} = Event <- Events, is_message(Deed), lists:member(From, Names), lists:member(To, Names)],
    case Idle andalso Talk =:= [] andalso length(Ends) =:= length(Parents) of
        true -> {{left, Parents}, Ends};
        false -> none
    end.

is_message({brings, _}) -> true;
is_message({alias, _, _, _}) -> true;
is_message(_) -> false.
