%% A run as units, each with what it comes to and with those that have to come before it.
-module(report_units).
-export([units/2, step/1, steps/1, before/3]).
-include("report.hrl").
-include("report_units.hrl").

%% The units of a run, by when signals are delivered in it.
units(Events, Delivery) ->
    Units = lists:enumerate(grouped(Events, Delivery)),
    Places = maps:from_list([{Number, Place} || {Place, Group} <- Units, #event{number = Number} <- Group]),
    Things = things(Events),
    Brought = maps:map(fun(_, Number) -> maps:get(Number, Places) end, brought(Events)),
    Sources = maps:map(fun(_, Number) -> maps:get(Number, Places) end, report_story:sources(Events)),
    {Found, _} = lists:mapfoldl(fun({Place, [#event{number = Number} = Event | _] = Group}, Last) ->
                                        By = maps:get(Number, Brought, none),
                                        Needs = needs(Event, Last, [By, maps:get(Number, Sources, none)]),
                                        {#unit{place = Place, events = Group, things = lists:flatmap(fun(One) -> things_of(One, Things) end, Group),
                                               needs = Needs, brought = By}, noted(Place, Event, Last)}
                                end, #{}, Units),
    Found.

grouped([], _) -> [];
%% (the message of a timer comes when it comes)
grouped([First | Events], at_once) ->
    {Deliveries, Left} = lists:splitwith(fun(#event{who = Who, deed = Deed}) -> is_tuple(Who) andalso element(1, Deed) =/= timer end, Events),
    [[First | Deliveries] | grouped(Left, at_once)];
grouped(Events, any_delay) -> [[Event] || Event <- Events].

%% The step that a unit begins with, and all its steps.
step(#unit{events = [#event{who = Who} | _]}) -> Who.
steps(#unit{events = Events}) -> [Who || #event{who = Who} <- Events].

%% ---- what they come to

%% The things of each event, by its number.
things(Events) ->
    {Things, _} = lists:mapfoldl(fun(Event, World) ->
                                         {{Event#event.number, report_touched:things(Event, World)}, report_world:after_event(Event, World)}
                                 end, report_world:new(), Events),
    maps:from_list(Things).

things_of(#event{number = Number} = Event, Things) -> [{Thing, Access, Event} || {Thing, Access} <- maps:get(Number, Things)].

%% ---- which come before which

%% The units that come directly before one: the last one of its process or way, the one that began the process, and where a
%% message comes from. Last has the last unit of each step, and the one that began each process.
needs(#event{who = Who}, Last, Others) ->
    Sender = case Who of {From, _} -> maps:get(From, Last, none); _ -> none end,
    Before = case Others of [none, none] -> [Sender]; _ -> Others end,
    [Place || Place <- [maps:get(Who, Last, none), maps:get({begun, Who}, Last, none) | Before], Place =/= none].

noted(Place, #event{who = Who} = Event, Last) ->
    maps:merge(Last, maps:from_list([{Who, Place} | [{{begun, Child}, Place} || {Child, _} <- report_story:spawned(Event)]])).

%% The event that brought each message which was taken, by the number of the event that took it.
brought(Events) ->
    {Brought, _} = lists:foldl(fun mail/2, {#{}, []}, Events),
    Brought.

mail(#event{number = Number, who = Name, deed = {receives, Message}}, {Brought, Mail}) ->
    case lists:keytake({Name, Message}, 1, Mail) of
        {value, {_, By}, Left} -> {Brought#{Number => By}, Left};
        false -> {Brought, Mail}
    end;
mail(#event{number = Number, who = {_, To}, deed = Deed}, {Brought, Mail}) ->
    {Brought, Mail ++ [{{To, Message}, Number} || Message <- message(Deed)]};
mail(#event{number = Number, who = Name, deed = {call, erlang, _, [{pid, Name}, Message], {ok, _}}}, {Brought, Mail}) ->
    {Brought, Mail ++ [{{Name, Message}, Number}]};
mail(_, Found) -> Found.

message({brings, Message}) -> [Message];
message({_, _, {message, Message}}) -> [Message];
message({_, _, _, {message, Message}}) -> [Message];
message(_) -> [].

%% The places after Place of the units that have to come before those that are needed, with these, in their order.
before(Needs, Place, Units) -> before([Need || Need <- Needs, Need >= Place], Place, Units, []).

before([], _, _, Found) -> lists:usort(Found);
before([Need | Needs], Place, Units, Found) ->
    case lists:member(Need, Found) of
        true -> before(Needs, Place, Units, Found);
        false ->
            #unit{needs = More} = element(Need, Units),
            before([One || One <- More, One >= Place] ++ Needs, Place, Units, [Need | Found])
    end.
