%% What a transcript says beyond its lines: what each process is, and which send a delivery comes from.
-module(report_story).
-export([processes/1, timers/1, roles/2, places/2, sources/1, schedule/1, schedule_of/1, earlier/3, shown/1, spawned/1, limit/1, timeouts/1]).
-include("report.hrl").

%% The names of the processes, in the order in which they appear. A timer is none.
processes(Events) ->
    lists:foldl(fun(Name, Names) -> case lists:member(Name, Names) of true -> Names; false -> Names ++ [Name] end end,
                ["P"], lists:flatmap(fun appearing/1, Events)).

appearing(#event{who = {_, To}, deed = {timer, _, _, _}}) -> [To];
appearing(#event{who = {From, To}}) -> [From, To];
appearing(#event{who = Name} = Event) -> [Name | [Child || {Child, _} <- spawned(Event)]].

%% What an event spawned: the child, and what it begins with.
spawned(#event{deed = {call, erlang, Spawn, [_, {atom, Name}, {list, Arguments, nil}], {ok, Answer}}})
  when Spawn =:= spawn; Spawn =:= spawn_link; Spawn =:= spawn_monitor ->
    Child = case Answer of {pid, Pid} -> Pid; {tuple, [{pid, Pid}, _]} -> Pid end,
    [{Child, report_text:role(Name, Arguments)}];
spawned(_) -> [].

%% What each process runs; that of the first one is given.
roles(Events, First) -> maps:from_list([{"P", First} | lists:flatmap(fun spawned/1, Events)]).

%% The senders that are timers, in the order in which their messages are delivered.
timers(Events) ->
    Names = [From || #event{who = {From, _}, deed = {timer, _, _, _}} <- Events],
    lists:uniq(Names).

schedule(Events) -> schedule_of([Who || #event{who = Who} <- Events]).

schedule_of(Steps) -> lists:join(" ", [step(Step) || Step <- Steps]).

step({From, To}) -> [From, ">", To];
step(Name) -> Name.

%% The first of the other errors that a transcript shows on its way, with the number of the event: {Error, Event}, or
%% none. Errors are {Number, Identity}.
earlier(Identity, Errors, Events) ->
    Shown = [{Error, Event#event.number} ||
        Event <- Events, {Error, Other} <- Errors, Other =/= Identity, lists:member(Other, shown(Event))],
    case Shown of
        [First | _] -> First;
        [] -> none
    end.

%% What an event shows that is an error.
shown(#event{who = {_, To}, deed = Deed}) -> [{ends, To, Reason} || Reason <- ends(Deed)];
shown(#event{who = Name, deed = {ends, Reason}}) -> [{ends, Name, Reason}];
shown(#event{who = Name, deed = {call, _, _, _, {ends, Reason}}}) -> [{ends, Name, Reason}];
shown(#event{who = Name, deed = runaway}) -> [{runaway, Name}];
shown(_) -> [].

%% ---- limits

%% The limit of the explorer that the last event comes from, as {Limit, Place}, or none: that a process runs away is such
%% a limit, and an end may come from one that the machine met; so may an end by the signal of another process.
limit(#{events := []}) -> none;
limit(#{events := Events, limits := Limits}) -> limit(lists:last(Events), Events, Limits).

limit(#event{number = Number, deed = runaway}, _, Limits) -> maps:get(Number, Limits, {{applications, none}, none});
limit(#event{who = {From, _}, deed = {exit, Reason, {ends, Reason}}}, Events, Limits) ->
    Causes = [Number || #event{number = Number, who = Who, deed = {ends, Of}} <- Events, Who =:= From, Of =:= Reason],
    case [maps:get(Number, Limits) || Number <- Causes, maps:is_key(Number, Limits)] of
        [Found | _] -> Found;
        [] -> none
    end;
limit(#event{number = Number}, _, Limits) -> maps:get(Number, Limits, none).

%% ---- timeouts

%% The timeouts of receives that a transcript takes, {Milliseconds, Place, Event}: of several of one time and place the first.
timeouts(#{times := Times, places := Places}) ->
    Taken = [{{Time, maps:get(Number, Places, none)}, Number} || {Number, Time} <- maps:to_list(Times)],
    First = maps:from_list(lists:reverse(lists:keysort(2, Taken))),
    [{Time, Place, Number} || {{Time, Place}, Number} <- lists:keysort(2, maps:to_list(First))].

%% ---- deliveries

%% The places of all events, where those of turns are known: a delivery has that of the send, of the exit/2, of the end or of
%% the timer that it comes from. Nothing is said of the signal of a watch.
places(Events, Lines) ->
    Sources = sources(Events),
    lists:foldl(fun(Event, Places) -> place(Event, Places, Sources) end, Lines, Events).

place(#event{deed = {down, _, _}}, Places, _) -> Places;
place(#event{number = Number, who = {_, _}}, Places, Sources) ->
    Places#{Number => sent_at(maps:get(maps:get(Number, Sources, none), Places, none))};
place(_, Places, _) -> Places.

sent_at(none) -> none;
sent_at({sent, Place}) -> {sent, Place};
sent_at(Place) -> {sent, Place}.

%% Which event each delivery comes from, as far as that is known, by their numbers.
sources(Events) ->
    {Sources, _, _} = lists:foldl(fun source/2, {#{}, #{}, #{}}, Events),
    Sources.

%% To the sources that are known come what was sent and has not arrived, the oldest first, and how each process ended.
source(#event{number = Number, who = {From, To}, deed = Deed}, {Sources, Sent, Ended}) ->
    {Source, Left} = source_of(From, To, Deed, Sent, Ended),
    {maps:merge(Sources, maps:from_list([{Number, Source} || Source =/= none])), Left,
     maps:merge(Ended, maps:from_list([{To, {Number, Reason}} || Reason <- ends(Deed)]))};
source(#event{number = Number, who = Name, deed = Deed} = Event, {Sources, Sent, Ended}) ->
    {Sources, lists:foldl(fun(Cause, All) -> put_in(Cause, Number, All) end, Sent, sends(Name, Deed)),
     maps:merge(Ended, maps:from_list([{Name, {Number, Reason}} || {ends, _, Reason} <- shown(Event)]))}.

%% An end may send to several others, a send to one.
source_of(From, _, {brings, Message}, Sent, _) -> taken({From, Message}, Sent);
source_of(From, _, {alias, Reference, _, _}, Sent, _) -> taken({From, alias, Reference}, Sent);
source_of(_, _, {timer, Reference, _, _}, Sent, _) -> taken({timer, Reference}, Sent);
source_of(From, To, {exit, Reason, _}, Sent, Ended) ->
    case taken({From, exit, To, Reason}, Sent) of
        {none, _} -> {end_of(From, Reason, Ended), Sent};
        Found -> Found
    end;
source_of(From, _, {down, _, {message, {tuple, Parts}}}, Sent, Ended) -> {end_of(From, lists:last(Parts), Ended), Sent};
source_of(From, _, {down, _, _}, Sent, Ended) -> {element(1, maps:get(From, Ended, {none, none})), Sent}.

put_in(Cause, Number, Sent) -> Sent#{Cause => queue:in(Number, maps:get(Cause, Sent, queue:new()))}.

taken(Cause, Sent) ->
    case queue:out(maps:get(Cause, Sent, queue:new())) of
        {{value, Number}, Left} -> {Number, Sent#{Cause => Left}};
        {empty, _} -> {none, Sent}
    end.

%% The end of a process, where it was for this reason: a link or a watch of what is gone already is told another one.
end_of(Name, Reason, Ended) ->
    case Ended of
        #{Name := {Number, Reason}} -> Number;
        _ -> none
    end.

%% What a turn sends to others, beside its end. A timer sends by itself.
sends(Name, {call, erlang, Send, [{ref, _} = Reference, _], {ok, _}}) when Send =:= '!'; Send =:= send -> [{Name, alias, Reference}];
sends(_, {call, erlang, Start, _, {ok, Timer}}) when Start =:= start_timer; Start =:= send_after -> [{timer, Timer}];
sends(Name, {call, erlang, Send, [To, Message], {ok, _}}) when Send =:= '!'; Send =:= send ->
    [{Name, Message} || To =/= {pid, Name}];
sends(Name, {call, erlang, exit, [{pid, To}, Reason], {ok, _}}) -> [{Name, exit, To, Reason}];
sends(_, _) -> [].

%% The reason with which a delivery ends its receiver.
ends({exit, _, {ends, Reason}}) -> [Reason];
ends(_) -> [].
