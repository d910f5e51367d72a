%% Which two events race where an error comes: two of its run that, the other way round, give a run without it.
%%
%% The run of the error is followed to its end. Then a later event is put before an earlier one of another process, where both
%% come to the same thing: the latest of the earlier ones first, and for each of these the earliest of the later ones. So the
%% run that is found agrees with that of the error for as long as one of these does. With the later event comes what leads to it;
%% all else follows in its old order, as far as it can, and then to its end. What such a run shows a replay tells, and no more is
%% said of the two events than that.
-module(report_race).
-export([race/4]).
-include("report.hrl").
-include("report_units.hrl").

%% What is asked of runs: the error; the errors that its own run shows; the errors of the report, {Number, Error}, what is taken as
%% normal, and whether these are all that any schedule shows; and how runs are followed, as report_course has it.
-record(asked, {error, own, errors, normal, is_whole, how}).

%% Two events that may race: the events before the first one; the steps that are to be taken there, and the step of the second one,
%% which is the last of so many of these; how many of these are in no run of the error; the unit of the first one, and the units that
%% follow; that of the second one, where it is one of the run; and what both come to, as report_touched:meet has it.
-record(pair, {prefix, steps, step, count, more = 0, first, rest, second = none, meeting}).

%% How many turns are looked at of a process that the earlier event ends.
-define(AHEAD, 8).

%% How many pairs are tried for a run without another error, after one with another error was found.
-define(MORE, 12).

%% The race of an error with these events, of which those with the numbers Timed take a message of a receive with a time: {First,
%% Second, Instead, Own}, or none. First is {Event, Thing}, an event of the error and
%% what it has to do with the second one. This is {Event, Thing, Run}, where the run is that of the error, `own`, or another one, by
%% its events. Instead is the number of an error that comes in the place of this one, or none; Own has the events of the run of
%% the error to its end. Known is {Errors, Normal, IsWhole}: the errors of the report, {Number, Identity}, the identities of what is
%% taken as normal, and whether these are all that any schedule shows. Delivery and Replay are those of report_course. Of unread
%% messages there is none: what is left in the mailboxes of a run is not followed.
race({unread_messages, _}, _, _, _) -> none;
race(Identity, {Events, Timed}, {Errors, Normal, IsWhole}, {Delivery, Replay}) ->
    case report_course:followed([], [], report_course:new(Events), {Delivery, Replay, fun(_) -> false end}) of
        Fault when is_atom(Fault) -> none;
        Course ->
            How = {Delivery, Replay, fun(Event) -> lists:member(as_shown(Identity), shown_by(Event)) end},
            Units = list_to_tuple(report_units:units(report_course:events(Course), Delivery)),
            Asked = #asked{error = as_shown(Identity), own = shown(Course), errors = [{Number, as_shown(One)} || {Number, One} <- Errors],
                           normal = [as_shown(One) || One <- Normal], is_whole = IsWhole, how = How},
            Own = [Unit || #unit{events = [#event{number = Number} | _]} = Unit <- tuple_to_list(Units), Number =< length(Events)],
            case first_of([fun() -> pairs(First, Units, Timed) end || First <- lists:reverse(Own)], Asked, none, ?MORE) of
                none -> none;
                {First, Second, Instead} -> {First, Second, Instead, report_course:events(Course)}
            end
    end.

%% The first run without the error and without another one that the run of the error does not show; or else the first without the
%% error, {First, Second, Instead}, after which so many more pairs are tried. Where no more replays are to be made, what was found
%% by then.
first_of([], _, Found, _) -> Found;
first_of(_, _, Found, 0) -> Found;
first_of([Pairs | Later], Asked, Found, More) when is_function(Pairs) -> first_of(Pairs() ++ Later, Asked, Found, More);
first_of([Pair | Later], Asked, Found, More) ->
    case tried(Pair, Asked) of
        spent -> Found;
        {{_, _, none} = Race, _} -> Race;
        {{_, _, _} = Race, Course} when Found =:= none -> first_of(further(Pair, Course) ++ Later, Asked, Race, ?MORE);
        {_, Course} -> first_of(further(Pair, Course) ++ Later, Asked, Found, fewer(Found, More));
        _ -> first_of(Later, Asked, Found, fewer(Found, More))
    end.

fewer(none, More) -> More;
fewer(_, More) -> More - 1.

%% ---- which events may race

%% The pairs of a unit with later ones.
pairs(#unit{place = Place} = First, Units, Timed) ->
    {Before, [_ | After]} = lists:split(Place - 1, tuple_to_list(Units)),
    Prefix = lists:append([Events || #unit{events = Events} <- Before]),
    Pair = #pair{prefix = Prefix, first = First, rest = After},
    lists:append([pair(Pair, Second, Units, Timed) || Second <- After]) ++ ended(Pair) ++ held(Pair).

%% The second one of a pair, with what leads to it, is put before the first one, unless the first one leads to it. But a receive may
%% time out before the message that it takes.
pair(#pair{first = #unit{place = Place} = First, rest = After} = Pair, #unit{needs = Needs, brought = By} = Second, Units, Timed) ->
    Step = report_units:step(Second),
    Others = case By of Place -> Needs -- [Place]; _ -> Needs end,
    Leading = report_units:before(Others, Place, Units),
    Meeting = case By of Place -> taken_by(First, Second, Timed); _ -> meeting(First, Second) end,
    case Meeting =/= none andalso Step =/= report_units:step(First) andalso not lists:member(Place, Leading) of
        true ->
            Moved = [element(One, Units) || One <- Leading ++ [Second#unit.place]],
            Steps = lists:flatmap(fun report_units:steps/1, Moved) ++ lost(Second),
            [Pair#pair{steps = Steps, step = Step, count = count(Step, Steps), rest = After -- Moved, second = Second, meeting = Meeting}];
        false -> []
    end.

count(Step, Steps) -> length([One || One <- Steps, One =:= Step]).

%% The delivery of a message whose receiver had ended, and has not before the first event.
lost(#unit{things = Things}) -> [{Name, To} || {{mail, To}, write, #event{who = Name}} <- Things, not is_tuple(Name)].

%% What two units both come to, {Thing, Event, Other}, or none: of several what says most.
meeting(#unit{things = Things}, #unit{things = Others}) ->
    case report_touched:meet(Things, Others) of
        [Meeting | _] -> Meeting;
        [] -> none
    end.

%% The message that a unit brings and another one takes, where that waits for a time only.
taken_by(#unit{events = Events}, #unit{events = [#event{number = Number, who = Name, deed = {receives, Message}} = Taken | _]}, Timed) ->
    case [Event || #event{who = {_, To}, deed = Deed} = Event <- Events, To =:= Name, brings(Deed) =:= Message, lists:member(Number, Timed)] of
        [Event | _] -> {{mail, Name}, Event, Taken};
        [] -> none
    end.

brings({brings, Message}) -> Message;
brings({_, _, {message, Message}}) -> Message;
brings({_, _, _, {message, Message}}) -> Message;
brings(_) -> none.

%% A process that the first unit ends may do more before it: its next turn, which is in no run yet.
ended(#pair{first = #unit{events = Events}} = Pair) ->
    [Pair#pair{steps = [Name], step = Name, count = 1, meeting = {{life, Name}, Event, none}} ||
        #event{who = {_, Name}, deed = {exit, _, {ends, _}}} = Event <- Events].

%% A process that times out may wait instead until something arrives.
held(#pair{first = #unit{events = [#event{who = Name, deed = timeout} = Event | _]}} = Pair) ->
    [Pair#pair{steps = [], step = held, count = 1, meeting = {{mail, Name}, Event, none}}];
held(_) -> [].

%% With one more turn of the second event's process before the first event, where that turn may matter: it comes to the same things
%% in the run in which it follows, and is none of the run of the error; or it is one of a process that the first event ends.
further(#pair{step = Step}, _) when not is_list(Step) -> [];
further(#pair{count = Count, more = More, meeting = {{life, Step}, _, none}, step = Step, steps = Steps} = Pair, _) when More < ?AHEAD ->
    [Pair#pair{steps = Steps ++ [Step], count = Count + 1, more = More + 1}];
further(#pair{count = Count, more = More, step = Step, steps = Steps, first = First, prefix = Prefix, rest = Rest} = Pair, {Course, Delivery})
  when More < ?AHEAD ->
    Units = report_units:units(report_course:events(Course), Delivery),
    case lists:nthtail(Count, [Unit || #unit{events = [#event{number = Number} | _]} = Unit <- Units, Number > length(Prefix), report_units:step(Unit) =:= Step]) of
        [Next | _] ->
            case not lists:any(fun(Unit) -> is_asked_in(Next, Unit) end, Rest) andalso meeting(First, Next) of
                {Thing, Event, _} -> [Pair#pair{steps = Steps ++ [Step], count = Count + 1, more = More + 1, second = none, meeting = {Thing, Event, none}}];
                _ -> []
            end;
        [] -> []
    end;
further(_, _) -> [].

%% Whether two units are of one process, and ask for the same.
is_asked_in(#unit{events = [#event{who = Who, deed = Deed} | _]}, #unit{events = [#event{who = Other, deed = OtherDeed} | _]}) ->
    Who =:= Other andalso request(Deed) =:= request(OtherDeed).

%% ---- what a run shows

%% The race that a pair is, or none, with the run that was tried, {Race, {Course, Delivery}}; `refused` where a step of the pair is not
%% enabled, and `spent` where no more replays are made.
tried(#pair{prefix = Prefix, steps = Steps, first = First, rest = Rest} = Pair, #asked{how = {Delivery, _, _} = How} = Asked) ->
    Old = lists:flatmap(fun report_units:steps/1, [First | Rest]),
    case report_course:followed(Steps, Old, begun(Pair), How) of
        Fault when is_atom(Fault) -> Fault;
        Course ->
            New = lists:nthtail(length(Prefix), report_course:events(Course)),
            Race = case {outcome(Course, New, Asked), second(Pair, New, Course)} of
                {{without, Instead}, {_, _, _} = Second} -> {first(Pair), Second, Instead};
                _ -> none
            end,
            {Race, {Course, Delivery}}
    end.

begun(#pair{step = held, prefix = Prefix, first = First}) -> report_course:held(report_units:step(First), report_course:new(Prefix));
begun(#pair{prefix = Prefix}) -> report_course:new(Prefix).

first(#pair{meeting = {Thing, Event, _}}) -> {Event, Thing}.

%% The second event of a pair, {Event, Thing, Run}, where it came before the first one in these new events, and both were asked for as
%% in the run of the error; or none. A first one that does not come any more is one of a process that has ended.
second(#pair{first = #unit{events = [#event{who = Who, deed = Deed} | _]}, count = Count} = Pair, New, Course) ->
    {Early, Late} = lists:splitwith(fun(#event{who = One}) -> One =/= Who end, New),
    IsAsked = case Late of
        [#event{deed = Other} | _] -> request(Other) =:= request(Deed);
        [] -> report_course:is_over(Who, Course)
    end,
    case [Event || IsAsked, Event <- Early, is_second(Event, Pair)] of
        Events when length(Events) >= Count -> told(Pair, lists:nth(Count, Events), report_course:events(Course));
        _ -> none
    end.

%% The first message for a process that waits is what it was held for.
is_second(#event{who = {_, To}, deed = Deed}, #pair{step = held, first = First}) -> To =:= report_units:step(First) andalso brings(Deed) =/= none;
is_second(#event{who = Who}, #pair{step = Step}) -> Who =:= Step.

%% An event of the run of the error is told as it is there, but a timeout that comes only before a message is of the other run.
told(#pair{second = none, meeting = {Thing, _, _}}, Event, Run) -> {Event, Thing, Run};
told(#pair{first = #unit{place = Place}, second = #unit{brought = Place}, meeting = {Thing, _, _}}, #event{deed = timeout} = Event, Run) ->
    {Event, Thing, Run};
told(#pair{first = #unit{place = Place}, second = #unit{brought = Place}}, _, _) -> none;
told(#pair{second = #unit{events = [#event{deed = Deed} | _]}, meeting = {Thing, _, Second}}, #event{deed = Other}, _) ->
    case request(Other) =:= request(Deed) of
        true -> {Second, Thing, own};
        false -> none
    end.

%% What a step asks for, or brings, whatever becomes of it.
request({call, Module, Function, Arguments, _}) -> {Module, Function, Arguments};
request({receives, _}) -> message;
request(timeout) -> message;
request({exit, Reason, _}) -> {exit, Reason};
request({down, Reference, _}) -> {down, Reference};
request({Kind, Reference, Message, _}) when Kind =:= alias; Kind =:= timer -> {Kind, Reference, Message};
request(Deed) -> Deed.

%% {without, Error}, where a run does not show the error, but another one that the run of the error does not show, or none; or else
%% `with`. A run that comes to what is not read tells nothing, and neither does one that may show an error which is not known.
outcome(Course, New, #asked{error = Error, own = Own, errors = Errors, normal = Normal, is_whole = IsWhole}) ->
    All = shown(Course),
    Shown = [Other || Other <- All, not lists:member(Other, Own)],
    Known = Normal ++ [Other || {_, Other} <- Errors],
    IsTold = lists:all(fun(#event{deed = Deed}) -> report_unread:what(Deed) =:= none end, New)
        andalso (IsWhole orelse [Other || Other <- Shown, is_failure(Other), not lists:member(Other, Known)] =:= []),
    case IsTold andalso not lists:member(Error, All) of
        true -> {without, hd([Number || {Number, Other} <- Errors, lists:member(Other, Shown)] ++ [none])};
        false -> with
    end.

%% What a run shows to its end that may be an error.
shown(Course) ->
    [{deadlock, Names} || [_ | _] = Names <- [report_course:waiting(Course)]] ++ lists:flatmap(fun shown_by/1, report_course:events(Course)).

shown_by(#event{who = Who, deed = {call, ets, _, _, {refused, _}} = Deed}) -> [{refusal, Who, Deed}];
shown_by(Event) -> report_story:shown(Event).

%% An identity as runs show it.
as_shown({deadlock, Names}) -> {deadlock, lists:sort(Names)};
as_shown({refusal, Name, _, Deed}) -> {refusal, Name, Deed};
as_shown(Identity) -> Identity.

is_failure({ends, _, {atom, normal}}) -> false;
is_failure({refusal, _, _}) -> false;
is_failure(_) -> true.
