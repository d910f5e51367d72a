%% What is not read and was reached, as a third kind of finding beside errors and refusals. The converter lets a process stop
%% there (stops.erl): it looks up a table whose name says what is not read, which the program lists as a refusal, and then
%% waits for ever. A deadlock in which such a process waits is no error, and messages that are unread while it waits are none:
%% in Erlang the process goes on.
-module(report_unread).
-export([what/1, sorted/2, head/2, sums/3]).
-export([text/1, below/2]).
-include("report.hrl").

%% What is not read, where a call is a stop, or none.
what({call, ets, lookup, [{atom, Table}, {atom, none}], {refused, _}}) ->
    case atom_to_list(Table) of
        "not read: " ++ What -> What;
        _ -> none
    end;
what(_) -> none.

%% The findings of a report, each with its place there, in three parts: what is left of them, with new numbers; what is not
%% read, {What, Place, Schedule} once each, with the shortest of its schedules; and how many deadlocks were left out, each with
%% what is unread at it.
%% Events(Place) are those of a finding.
sorted(Findings, Events) ->
    Placed = lists:enumerate(Findings),
    Stops = [{What, Place, Schedule} || {Place, {refusal, _, Identity, Schedule}} <- Placed, What <- stop(Identity)],
    Stopped = [Place || {Place, {Kind, _, Identity, _}} <- Placed, Kind =/= refusal, Stops =/= [], is_stopped(Identity, Events(Place))],
    Left = Stopped ++ [Place || {_, Place, _} <- Stops],
    Deadlocks = [Place || {Place, {_, _, Identity, _}} <- Placed, lists:member(Place, Stopped), element(1, Identity) =:= deadlock],
    {numbered([One || {Place, _} = One <- Placed, not lists:member(Place, Left)]), once(Stops), length(Deadlocks)}.

stop({refusal, _, _, Call}) -> [What || What <- [what(Call)], What =/= none];
stop(_) -> [].

%% Whether a finding is a deadlock of a process that stands at what is not read, or of messages that are unread while one does.
is_stopped({deadlock, Names}, Events) -> [Who || Who <- stopped(Events), lists:member(Who, Names)] =/= [];
is_stopped({unread_messages, _}, Events) -> stopped(Events) -- [Who || Event <- Events, {ends, Who, _} <- report_story:shown(Event)] =/= [];
is_stopped(_, _) -> false.

%% The processes that came to what is not read.
stopped(Events) -> [Who || #event{who = Who, deed = Deed} <- Events, what(Deed) =/= none].

%% Each kind of findings is numbered by itself.
numbered(Placed) ->
    {New, _} = lists:mapfoldl(fun({Place, {Kind, _, Identity, Schedule}}, Counts) ->
                                      Number = maps:get(Kind, Counts, 0) + 1,
                                      {{Place, {Kind, Number, Identity, Schedule}}, Counts#{Kind => Number}}
                              end, #{}, Placed),
    New.

once(Stops) ->
    Shortest = fun(What) -> hd(lists:sort([{length(string:lexemes(Schedule, " ")), Place, Schedule} || {W, Place, Schedule} <- Stops, W =:= What])) end,
    lists:sort(fun({_, P, _}, {_, Q, _}) -> P =< Q end,
               [{What, Place, Schedule} || What <- lists:usort([W || {W, _, _} <- Stops]), {_, Place, Schedule} <- [Shortest(What)]]).

%% ---- text

text(What) -> ["\nnot read: ", What, "\n"].

%% The first line of a report, which says that what comes after a stop is not explored.
head([], Line) -> Line;
head(_, Line) -> [string:trim(lists:flatten(Line), trailing), ", up to what is not read\n"].

%% The sums of a report: the counts of what is left, of what is not read, where that was reached, and the result, which is
%% only that of the program where errors are left.
sums(_, [], {Counts, Result}) -> {Counts, none, Result};
sums(Findings, Stops, {_, Result}) ->
    Count = fun(Kind) -> length([Kind || {_, {K, _, _, _}} <- Findings, K =:= Kind]) end,
    {{Count(error), Count(refusal), Count(normal)}, length(Stops), case Count(error) of 0 -> {incomplete, none}; _ -> Result end}.

%% What that means, below the result.
below([], _) -> "";
below(_, Deadlocks) ->
    ["what comes after what is not read was not explored\n",
     case Deadlocks of
         0 -> "";
         1 -> "1 deadlock is no error here, since a process that waits in it stands at what is not read\n";
         _ -> [integer_to_list(Deadlocks), " deadlocks are no errors here, since a process that waits in each stands at what is not read\n"]
     end].
