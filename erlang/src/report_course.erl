%% Runs of a program that are followed to their end, by replays of their schedules.
%%
%% The steps of a run are asked for in some order; a step that is not enabled in its place is left out. Where signals arrive at
%% once, each is delivered before the next turn, whatever was asked for. When nothing is asked for any more, each process takes
%% turns until none can.
-module(report_course).
-export([new/1, held/2, followed/4, events/1, waiting/1, is_over/2]).
-include("report.hrl").

%% The events so far, the latest first; what they leave; and which processes wait, since a turn of theirs was refused.
-record(course, {events = [], world, waiting = []}).

%% How many steps a run has at most, and how many turns of each process are tried in one replay.
-define(LONGEST, 1000).
-define(ROUNDS, 8).

%% The run of some events.
new(Events) -> lists:foldl(fun taken/2, #course{world = report_world:new()}, Events).

events(#course{events = Events}) -> lists:reverse(Events).

%% With a process that takes no turn before something arrives for it.
held(Name, #course{waiting = Waiting} = Course) -> Course#course{waiting = [Name | Waiting]}.

%% The processes that live at the end of a run and wait for ever.
waiting(#course{waiting = Waiting}) -> lists:sort(Waiting).

%% Whether a step cannot come any more, since its process, or the receiver, has ended.
is_over(Step, #course{world = World}) -> report_world:is_gone(receiver(Step), World).

%% A run that goes on with steps that are needed, with others as far as they are enabled, and then to its end, or until IsEnough(Event)
%% of a new event; or `refused` where a step that is needed is not enabled, and none where the run is too long, or where it cannot be
%% told what arrives. Replay(Steps) gives the events of a schedule up to its first step that is not enabled, or `spent`, which is passed
%% on, where no more replays are to be made.
followed(Needed, Others, Course, How) -> asked(Needed ++ Others, length(Others), Course, How).

%% The steps that are asked for, of which all but the last Others are needed.
asked(Steps, Others, Course, How) ->
    case proposed(Steps, Course, How) of
        [] -> to_end(Course, How);
        Proposed ->
            case tried(Proposed, Course, How) of
                {refused, Left, _} when length(Left) >= Others -> refused;
                {enough, _, Later} -> Later;
                {_, Left, Later} -> asked(Left, min(Others, length(Left)), Later, How);
                Fault -> Fault
            end
    end.

%% When nothing is asked for, what is on its way arrives, and each process that does not wait takes some turns.
to_end(#course{world = World, waiting = Waiting} = Course, How) ->
    case {report_world:arriving(World), report_world:living(World) -- Waiting} of
        {[], []} -> Course;
        {[], Names} -> on(lists:append(lists:duplicate(?ROUNDS, Names)), Course, How);
        {Arriving, _} -> on(Arriving, Course, How)
    end.

on(Steps, Course, How) ->
    case tried(proposed(Steps, Course, How), Course, How) of
        {enough, _, Later} -> Later;
        {_, _, Later} -> to_end(Later, How);
        Fault -> Fault
    end.

%% The run with the events of a replay of these steps, as far as they are enabled, {How, Steps, Course}: the steps that are left after one
%% that was `refused`, or after `some` that were taken, one of which may be `enough`.
tried(Proposed, Course, {_, Replay, IsEnough} = How) ->
    Old = steps(Course),
    case length(Old) > ?LONGEST orelse Replay(Old ++ Proposed) of
        true -> none;
        spent -> spent;
        Events ->
            New = [Event || #event{number = Number} = Event <- Events, Number > length(Old)],
            case accepted(New, Proposed, Course, How) of
                {_, Left, Later} = Result ->
                    case lists:any(IsEnough, lists:nthtail(length(Old), events(Later))) of
                        true -> {enough, Left, Later};
                        false -> Result
                    end;
                none -> none
            end
    end.

steps(Course) -> [Who || #event{who = Who} <- events(Course)].

%% The steps that are to be tried next. Those of processes that have ended are left out, and so is a first turn of one that waits.
%% Where signals arrive at once, the first that is on its way is before all else, unless it is a timer's.
proposed(Steps, #course{world = World, waiting = Waiting} = Course, {Delivery, _, _} = How) ->
    case [Step || Step <- Steps, not report_world:is_gone(receiver(Step), World)] of
        [Step | Rest] when not is_tuple(Step) ->
            case {first(World, Delivery), lists:member(Step, Waiting)} of
                {none, true} -> proposed(Rest, Course, How);
                {none, false} -> [Step | Rest];
                {First, _} -> [First, Step | Rest]
            end;
        [Step | Rest] when Delivery =:= at_once ->
            case first(World, Delivery) of
                none ->
                    case lists:member(Step, report_world:arriving(World)) of
                        true -> [Step | Rest];
                        false -> proposed(Rest, Course, How)
                    end;
                Step -> [Step | Rest];
                First -> [First | Rest]
            end;
        Left -> Left
    end.

receiver({_, To}) -> To;
receiver(Name) -> Name.

%% The signal that has to be delivered now.
first(World, at_once) ->
    case report_world:arriving_at_once(World) of
        [First | _] -> First;
        [] -> none
    end;
first(_, any_delay) -> none.

%% The run with the events of a replay, and the steps that are left of those that were proposed: {some, Steps, Course}, or {refused,
%% Steps, Course} where the one before these is not enabled. Where a signal has to be delivered before an event, the run ends before
%% it; where one is delivered that was not known to be on its way, there is none.
accepted([#event{who = Step} = Event | New], [Step | Proposed] = All, #course{world = World} = Course, {Delivery, _, _} = How) ->
    case {first(World, Delivery), is_tuple(Step) andalso not lists:member(Step, report_world:arriving(World))} of
        {_, true} -> none;
        {First, false} when First =:= none; First =:= Step -> accepted(New, Proposed, taken(Event, Course), How);
        _ -> {some, All, Course}
    end;
accepted([], [], Course, _) -> {some, [], Course};
accepted([], [Step | Proposed] = All, #course{world = World, waiting = Waiting} = Course, {Delivery, _, _}) ->
    case {first(World, Delivery), lists:member(Step, report_world:arriving(World))} of
        {_, true} -> none;
        {none, false} when is_tuple(Step), Delivery =:= at_once -> {some, Proposed, Course};
        {none, false} when is_tuple(Step) -> {refused, Proposed, Course};
        {none, false} -> {refused, Proposed, Course#course{waiting = lists:usort([Step || lists:member(Step, report_world:living(World))] ++ Waiting)}};
        _ -> {some, All, Course}
    end;
accepted(_, _, _, _) -> none.

%% One event more. A process that waits may go on where a signal of its own or one for it was delivered.
taken(#event{who = Who} = Event, #course{events = Events, world = World, waiting = Waiting} = Course) ->
    Woken = case Who of {From, To} -> [From, To]; Name -> [Name] end,
    After = report_world:after_event(Event, World),
    Course#course{events = [Event | Events], world = After,
                  waiting = [Name || Name <- Waiting -- Woken, not report_world:is_gone(Name, After)]}.
