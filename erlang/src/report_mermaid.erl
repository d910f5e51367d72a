%% A transcript as a sequence diagram in the language Mermaid, which code forges draw: processes are participants, what one does
%% by itself is a note over it, and deliveries are arrows.
-module(report_mermaid).
-export([text/2]).
-include("report_rows.hrl").

%% The diagram as a block of Markdown.
text({Columns, Rows}, #{roles := Roles}) ->
    Keys = maps:from_list([{Name, ["p", integer_to_list(I)]} || {I, Name} <- lists:zip(lists:seq(0, length(Columns) - 1), Columns)]),
    ["```mermaid\nsequenceDiagram\n",
     [["    participant ", maps:get(Name, Keys), " as ", escaped([Name, role(Name, Roles)]), "\n"] || Name <- Columns],
     [marked(Row, ["    ", drawn(Row, Keys), "\n"]) || Row <- Rows], "```\n"].

role(Name, Roles) -> [[" ", Role] || {ok, Role} <- [maps:find(Name, Roles)]].

%% What the finding is about has a red ground.
marked(#row{last = true}, Line) -> ["    rect rgb(254, 226, 226)\n", Line, "    end\n"];
marked(_, Line) -> Line.

drawn(#row{kind = turn, column = Name} = Row, Keys) -> ["Note over ", maps:get(Name, Keys), ": ", label(Row)];
drawn(#row{kind = Kind, column = From, other = To} = Row, Keys) ->
    [maps:get(From, Keys), arrow(Kind, Row), maps:get(To, Keys), ": ", label(Row)].

%% A delivery that ends its receiver has a cross at its end.
arrow(spawn, _) -> "-->>";
arrow(arrow, #row{mark = ends}) -> "-x";
arrow(arrow, _) -> "->>".

%% The number and the text of an event, and below these its place.
label(#row{number = Number, text = Text, place = Place}) ->
    Where = lists:flatten(report_text:place(Place)),
    [[[integer_to_list(Number), " "] || is_integer(Number)], escaped(Text), [["<br/>", escaped(Where)] || Where =/= ""]].

%% Letters, digits and what means nothing to Mermaid, to Markdown or to HTML stay as they are; any other character is written
%% by its number.
escaped(Text) -> [escape(C) || C <- lists:flatten(Text)].

escape(C) when C >= $a, C =< $z; C >= $A, C =< $Z; C >= $0, C =< $9; C >= 192 -> C;
escape(C) ->
    case lists:member(C, " .,:()[]{}'/+-=*!?|_@") of
        true -> C;
        false -> ["#", integer_to_list(C), ";"]
    end.
