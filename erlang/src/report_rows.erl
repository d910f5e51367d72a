%% The rows of a chart or a drawing: what happened, by columns of processes.
-module(report_rows).
-export([rows/2]).
-include("report.hrl").
-include("report_rows.hrl").

%% A transcript as rows, and the columns in their order.
rows(Finding, #{events := Events, places := Places} = Told) ->
    Sources = report_story:sources(Events),
    Rows = [(row(Event, maps:get(Number, Places, none)))#row{sent = maps:get(Number, Sources, none)} ||
               #event{number = Number} = Event <- Events],
    {report_story:processes(Events), last_marked(Finding, Rows ++ waiting(Finding, Told))}.

%% (a timer has no column, and a message that a process sends to itself by an alias stays in one)
row(#event{who = {_, _}, deed = {timer, _, _, _}} = Event, Place) -> from_none(Event, "the timer ", Place);
row(#event{who = {To, To}, deed = {alias, _, _, _}} = Event, Place) -> from_none(Event, "the alias ", Place);
row(#event{number = Number, who = {From, To}, deed = Deed}, Place) ->
    #row{number = Number, column = From, other = To, kind = arrow, text = text(Deed), mark = delivered(Deed),
         place = Place};
row(#event{number = Number, who = Name, deed = {call, erlang, Spawn, _, {ok, Answer}} = Deed}, Place)
  when Spawn =:= spawn; Spawn =:= spawn_link; Spawn =:= spawn_monitor ->
    Child = case Answer of {pid, Pid} -> Pid; {tuple, [{pid, Pid}, _]} -> Pid end,
    #row{number = Number, column = Name, other = Child, kind = spawn, text = text(Deed), mark = plain, place = Place};
row(#event{number = Number, who = Name, deed = Deed}, Place) ->
    #row{number = Number, column = Name, kind = turn, text = text(Deed), mark = mark(Deed), place = Place}.

%% A message that comes from no other column. Where it is dropped, its text says what sent it.
from_none(#event{number = Number, who = {_, To}, deed = {_, Reference, _, Fate} = Deed}, What, Place) ->
    Text = [[[What, report_term:text(Reference), " "] || Fate =/= dropped], report_text:deed(Deed)],
    #row{number = Number, column = To, kind = turn, text = flat(Text), mark = plain, place = Place}.

%% An arrow has the message that arrives, as far as one does.
text({brings, Term}) -> flat(report_term:text(Term));
text({exit, _, {message, Term}}) -> flat(report_term:text(Term));
text({down, _, {message, Term}}) -> flat(report_term:text(Term));
text({alias, _, Term, {message, _}}) -> flat(report_term:text(Term));
text(Deed) -> flat(report_text:deed(Deed)).

flat(Text) -> lists:flatten(Text).

mark({call, _, _, _, {refused, _}}) -> refused;
mark({call, _, _, _, {ends, _}}) -> ends;
mark({call, ets, _, _, _}) -> table;
mark({receives, _}) -> taken;
mark({ends, _}) -> ends;
mark(runaway) -> ends;
mark(_) -> plain.

%% A delivery that ends its receiver ends its column.
delivered({brings, _}) -> message;
delivered({alias, _, _, {message, _}}) -> message;
delivered(Deed) when is_tuple(Deed) ->
    case element(tuple_size(Deed), Deed) of
        {ends, _} -> ends;
        _ -> plain
    end.

waiting({Kind, Names}, Told) when Kind =:= deadlock; Kind =:= unread_messages ->
    [#row{number = none, column = Name, kind = turn, text = flat(report_text:waits(Name, Told)), mark = waits,
          place = report_text:stands(Name, Told)} || Name <- Names];
waiting(_, _) -> [].

%% The last event is what a finding is about, and of a deadlock or unread messages who waits; a schedule that was asked for has
%% none.
last_marked(replay, Rows) -> Rows;
last_marked({Kind, _}, Rows) when Kind =:= deadlock; Kind =:= unread_messages -> [Row#row{last = Row#row.mark =:= waits} || Row <- Rows];
last_marked(_, []) -> [];
last_marked(_, Rows) -> lists:droplast(Rows) ++ [(lists:last(Rows))#row{last = true}].
