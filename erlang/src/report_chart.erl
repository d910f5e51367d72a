%% A chart as text: a column for each process, a row for each event.
-module(report_chart).
-export([text/1]).
-include("report_rows.hrl").

-define(PAGE, 112).

text({Columns, Rows}) ->
    Width = max(26, min(44, ?PAGE div length(Columns))),
    Places = maps:from_list([{Name, Width * I} || {I, Name} <- lists:zip(lists:seq(0, length(Columns) - 1), Columns)]),
    Bars = lists:append([[$| | lists:duplicate(Width - 1, $\s)] || _ <- Columns]),
    [trimmed(["       ", [string:pad(Name, Width) || Name <- Columns]]), [row(Row, Places, Bars) || Row <- Rows]].

row(Row, Places, Bars) -> trimmed([sign(Row), number(Row#row.number), "  ", drawn(Row, Places, Bars)]).

%% What the finding is about has a sign before it.
sign(#row{last = true}) -> "> ";
sign(_) -> "  ".

number(none) -> "   ";
number(Number) -> io_lib:format("~3w", [Number]).

drawn(#row{kind = turn, column = Name} = Row, Places, Bars) ->
    over(Bars, maps:get(Name, Places), [bullet(Row#row.mark), $\s | Row#row.text]);
drawn(#row{column = Name, other = Other, kind = Kind} = Row, Places, Bars) ->
    {From, To} = {maps:get(Name, Places), maps:get(Other, Places)},
    {Left, Right} = {min(From, To), max(From, To)},
    Line = over(Bars, Left + 1, lists:duplicate(max(0, Right - Left - 1), stroke(Kind))),
    Tailed = over(over(Line, To, [head(From, To)]), From, "o"),
    over(Tailed, Left + 2, [$\s | cut(Row#row.text, Right - Left - 5)] ++ " ").

stroke(arrow) -> $-;
stroke(spawn) -> $..

head(From, To) when From < To -> $>;
head(_, _) -> $<.

bullet(refused) -> $!;
bullet(table) -> $#;
bullet(ends) -> $x;
bullet(waits) -> $?;
bullet(_) -> $*.

%% A text with another one over it from a place on; it may be longer.
over(Text, Place, Over) ->
    {Before, Behind} = lists:split(min(Place, length(Text)), Text),
    Before ++ Over ++ lists:nthtail(min(length(Over), length(Behind)), Behind).

cut(Text, Width) when length(Text) =< Width -> Text;
cut(Text, Width) -> lists:sublist(Text, max(0, Width - 2)) ++ "..".

trimmed(Text) -> [string:trim(lists:flatten(Text), trailing), "\n"].
