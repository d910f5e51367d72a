%% A drawing of a transcript as SVG: processes are columns, time runs downwards, and deliveries are arrows from the event that
%% they come from. So no arrow begins at a process that has ended.
-module(report_drawing).
-export([text/3]).
-include("report_rows.hrl").

%% Widths in pixels of a character, in the font of labels and in the small one.
-define(LETTER, 7.25).
-define(SMALL_LETTER, 6.1).
-define(TOP, 128).
-define(ROW, 30).
-define(LEAST_GAP, 120).
-define(GREATEST_GAP, 330).

-record(sheet, {columns, rows, heights, places, raised, gutter, width, height}).

text(Title, {Columns, Rows}, #{roles := Given, module := Module}) ->
    Roles = maps:map(fun(_, Role) -> in_module(lists:flatten(Role), Module) end, Given),
    Sheet = sheet(lists:flatten(Title), Columns, [labelled(Row) || Row <- Rows], Roles),
    ["<svg xmlns=\"http://www.w3.org/2000/svg\" width=\"", number(Sheet#sheet.width), "\" height=\"",
     number(Sheet#sheet.height), "\">\n", style(),
     rectangle("page", 0, 0, Sheet#sheet.width, Sheet#sheet.height),
     words("title", 16, 28, Title),
     [stripe(Y, Sheet) || {Row, Y} <- Sheet#sheet.rows, Row#row.last],
     [[life(Name, Sheet), head(Name, maps:get(Name, Roles, ""), Sheet)] || Name <- Columns],
     [arrow(Row, Y, Sheet) || {#row{kind = Kind} = Row, Y} <- Sheet#sheet.rows, Kind =/= turn],
     [row(Row, Y, Sheet) || {Row, Y} <- Sheet#sheet.rows],
     legend(Sheet), "</svg>\n"].

%% What a process runs, with the module. A behaviour has one, after a blank; functions of other modules have theirs before a
%% colon.
in_module("fun in " ++ Place, Module) -> "fun in " ++ in_module(Place, Module);
in_module(Role, none) -> Role;
in_module(Role, Module) ->
    {Name, _} = lists:splitwith(fun(C) -> C =/= $/ end, Role),
    case lists:any(fun(C) -> lists:member(C, Name) end, ": ") of
        true -> Role;
        false -> lists:flatten(io_lib:format("~tw:~ts", [Module, Role]))
    end.

%% A message that is sent by the event just before needs no text of its own. A delivery whose origin is not known is no arrow.
labelled(#row{kind = arrow, sent = none, other = To} = Row) -> Row#row{kind = turn, column = To};
labelled(#row{kind = arrow, number = Number, sent = Sent, mark = message} = Row) when Sent =:= Number - 1 -> Row#row{text = ""};
labelled(Row) -> Row.

style() ->
    ["<style>text{font-family:'DejaVu Sans Mono',Menlo,Consolas,monospace;font-size:12px;fill:#1f2937}"
     " .title{font-size:14px;font-weight:bold} .page{fill:#ffffff} .band{fill:#fee2e2}"
     " .head{fill:#f3f4f6;stroke:#6b7280} .name{font-weight:bold;text-anchor:middle}"
     " .role{font-size:10px;fill:#4b5563;text-anchor:middle} .small{font-size:10px;fill:#6b7280}"
     " .count{font-size:10px;fill:#6b7280;text-anchor:end} .life{stroke:#9ca3af;stroke-width:1.5}"
     " .unborn{stroke:#d1d5db;stroke-dasharray:2 4} .cover{fill:#ffffff;fill-opacity:0.9}"
     " .arrow{stroke:#374151;stroke-width:1.5} .spawn{stroke:#6b7280;stroke-width:1.2;stroke-dasharray:5 3}"
     " .point{fill:#374151} .middle{text-anchor:middle} .before{text-anchor:end} .plain{fill:#374151} .table{fill:#2563eb}"
     " .refused{fill:#c2410c} .taken{fill:#15803d} .ends{fill:#111827} .waits{fill:#dc2626} .message{fill:#374151}"
     " text.refused{font-weight:bold} line.last{stroke:#dc2626} polygon.last,rect.last,circle.last{fill:#dc2626}"
     " text.last{fill:#dc2626;font-weight:bold}</style>\n"].

%% ---- where everything is placed

sheet(Title, Columns, Rows, Roles) ->
    Placed = lists:zip(Rows, [?TOP + ?ROW * I || I <- lists:seq(0, length(Rows) - 1)]),
    Where = lists:max([0 | [length(place(Row)) || Row <- Rows]]),
    Gutter = 44 + round(?SMALL_LETTER * Where) + 26,
    Gap = gap(Columns, Rows, Roles),
    Half = half(hd(Columns), Roles),
    Places = maps:from_list([{Name, Gutter + Half + Gap * I} ||
        {I, Name} <- lists:zip(lists:seq(0, length(Columns) - 1), Columns)]),
    Right = lists:max([16 + round(8.6 * length(Title)), 560] ++
                      [maps:get(Name, Places) + half(Name, Roles) || Name <- Columns] ++
                      [right(Row, Places) || Row <- Rows]),
    Heights = maps:from_list([{Row#row.number, Y} || {Row, Y} <- Placed]),
    #sheet{columns = Columns, rows = Placed, heights = Heights, places = Places, raised = raised(Rows, Places), gutter = Gutter, width = Right + 20,
           height = ?TOP + ?ROW * length(Rows) + 36}.

%% The events from which an arrow goes to the right, where their texts are: these stand a little higher, above the arrow.
raised(Rows, Places) ->
    maps:from_list([{Sent, true} || #row{kind = arrow, column = From, other = To, sent = Sent} <- Rows,
                                    maps:get(From, Places) < maps:get(To, Places)]).

%% Between two columns is room for the longest text of an arrow, as far as it does not get too wide.
gap(Columns, Rows, Roles) ->
    Needs = [(width(Row#row.text) + 40) div max(1, distance(Row, Columns)) || Row <- Rows, Row#row.kind =:= spawn],
    Heads = [2 * half(Name, Roles) + 16 || Name <- Columns],
    min(?GREATEST_GAP, lists:max([?LEAST_GAP | Needs ++ Heads])).

distance(#row{column = From, other = To}, Columns) -> abs(index(From, Columns) - index(To, Columns)).

index(Name, Columns) -> length(lists:takewhile(fun(Column) -> Column =/= Name end, Columns)).

width(Text) -> round(?LETTER * length(Text)).

%% Half the width of the head of a column.
half(Name, Roles) ->
    Role = lists:flatten(maps:get(Name, Roles, "")),
    max(round(?SMALL_LETTER * length(Role)), width(Name)) div 2 + 10.

right(#row{kind = turn, column = Name, text = Text}, Places) -> maps:get(Name, Places) + 14 + width(Text);
right(#row{kind = arrow, column = From, other = To, text = Text}, Places) ->
    X = maps:get(To, Places),
    case maps:get(From, Places) < X of
        true -> X;
        false -> X + 14 + width(Text)
    end;
right(#row{column = From, other = To, text = Text}, Places) ->
    (maps:get(From, Places) + maps:get(To, Places)) div 2 + width(Text) div 2 + 4.

at(Name, Sheet) -> maps:get(Name, Sheet#sheet.places).

place(#row{place = Place}) -> lists:flatten(report_text:place(Place)).

%% ---- columns

head(Name, Role, Sheet) ->
    X = at(Name, Sheet),
    Half = half(Name, #{Name => Role}),
    [rectangle("head", X - Half, 52, 2 * Half, 40), words("name", X, 69, Name), words("role", X, 84, Role)].

%% A process lives from where it was spawned to where it ends.
life(Name, Sheet) ->
    X = at(Name, Sheet),
    Born = first([Y || {#row{kind = spawn, other = Child}, Y} <- Sheet#sheet.rows, Child =:= Name], 92),
    Gone = first([Y || {Row, Y} <- Sheet#sheet.rows, Row#row.mark =:= ends, whose(Row) =:= Name],
                 Sheet#sheet.height - 40),
    [line("unborn", X, 92, X, Born), line("life", X, Born, X, Gone)].

whose(#row{kind = arrow, other = To}) -> To;
whose(#row{column = Name}) -> Name.

first([Y | _], _) -> Y;
first([], Y) -> Y.

%% ---- rows

stripe(Y, Sheet) -> rectangle("band", 0, Y - ?ROW div 2, Sheet#sheet.width, ?ROW).

row(Row, Y, Sheet) -> [gutter(Row, Y), drawn(Row, Y, Sheet)].

gutter(#row{number = none} = Row, Y) -> words("small", 44, Y + 4, place(Row));
gutter(#row{number = Number} = Row, Y) ->
    [words("count", 34, Y + 4, integer_to_list(Number)), words("small", 44, Y + 4, place(Row))].

drawn(#row{kind = turn, column = Name, text = Text} = Row, Y, Sheet) ->
    X = at(Name, Sheet),
    Up = case maps:is_key(Row#row.number, Sheet#sheet.raised) of true -> 10; false -> 0 end,
    [cover(Row, X + 12, Y - 8 - Up, width(Text) + 4), mark(Row, X, Y), words(class(Row), X + 14, Y + 4 - Up, Text)];
drawn(#row{kind = arrow, text = ""}, _, _) -> "";
drawn(#row{kind = arrow, column = From, other = To, text = Text} = Row, Y, Sheet) ->
    {X1, X2} = {at(From, Sheet), at(To, Sheet)},
    case X1 < X2 of
        true -> [cover(Row, X2 - 14 - width(Text), Y + 3, width(Text) + 4), words(last(Row, "before"), X2 - 12, Y + 14, Text)];
        false -> [cover(Row, X2 + 10, Y + 3, width(Text) + 4), words(last(Row, "plain"), X2 + 12, Y + 14, Text)]
    end;
drawn(#row{kind = spawn, column = From, other = To, text = Text} = Row, Y, Sheet) ->
    Middle = (at(From, Sheet) + at(To, Sheet)) div 2,
    [cover(Row, Middle - width(Text) div 2 - 2, Y - 16, width(Text) + 4), words(last(Row, "middle"), Middle, Y - 5, Text)].

%% The line of a delivery, from the event that it comes from to where it arrives, or of a spawn.
arrow(#row{kind = spawn, column = From, other = To} = Row, Y, Sheet) ->
    joined(Row, "spawn", {at(From, Sheet), Y}, {at(To, Sheet), Y});
arrow(#row{kind = arrow, column = From, other = To, sent = Sent} = Row, Y, Sheet) ->
    joined(Row, "arrow", {at(From, Sheet), maps:get(Sent, Sheet#sheet.heights)}, {at(To, Sheet), Y}).

joined(Row, Class, {X1, Y1}, {X2, Y2}) ->
    [line(last(Row, Class), X1, Y1, X2, Y2), point(Row, {X1, Y1}, {X2, Y2}), bar(Row, X2, Y2)].

%% What is behind a text is covered, except for the band of the last event.
cover(#row{last = true}, _, _, _) -> "";
cover(_, X, Y, Width) -> rectangle("cover", X, Y, Width, 14).

class(#row{mark = Mark} = Row) -> last(Row, atom_to_list(Mark)).

last(#row{last = true}, Class) -> Class ++ " last";
last(_, Class) -> Class.

mark(#row{mark = table} = Row, X, Y) -> rectangle(class(Row), X - 5, Y - 5, 10, 10);
mark(#row{mark = refused} = Row, X, Y) -> polygon(class(Row), [{X, Y - 7}, {X + 7, Y}, {X, Y + 7}, {X - 7, Y}]);
mark(#row{mark = ends} = Row, X, Y) -> rectangle(class(Row), X - 9, Y - 2, 18, 5);
mark(Row, X, Y) ->
    ["<circle class=\"", class(Row), "\" cx=\"", number(X), "\" cy=\"", number(Y), "\" r=\"4.5\"/>\n"].

%% A delivery that ends its receiver.
bar(#row{mark = ends} = Row, X, Y) -> rectangle(class(Row), X - 9, Y - 2, 18, 5);
bar(_, _, _) -> "".

%% The head of an arrow, in the direction of its line.
point(Row, {X, Y}, {X, Y}) -> polygon(last(Row, "point"), [{X, Y}, {X - 4, Y - 9}, {X + 4, Y - 9}]);
point(Row, {X1, Y1}, {X2, Y2}) ->
    Length = math:sqrt((X2 - X1) * (X2 - X1) + (Y2 - Y1) * (Y2 - Y1)),
    {DX, DY} = {(X2 - X1) / Length, (Y2 - Y1) / Length},
    {X, Y} = {X2 - 9 * DX, Y2 - 9 * DY},
    polygon(last(Row, "point"), [{X2, Y2}, {X - 4 * DY, Y + 4 * DX}, {X + 4 * DY, Y - 4 * DX}]).

legend(Sheet) ->
    Y = Sheet#sheet.height - 14,
    [mark(#row{mark = plain}, 24, Y), words("small", 34, Y + 4, "call"),
     mark(#row{mark = table}, 78, Y), words("small", 88, Y + 4, "table call"),
     mark(#row{mark = refused}, 168, Y), words("small", 180, Y + 4, "refused"),
     mark(#row{mark = taken}, 242, Y), words("small", 252, Y + 4, "receive"),
     mark(#row{mark = ends}, 318, Y), words("small", 332, Y + 4, "end"),
     line("arrow", 366, Y, 396, Y), point(#row{}, {366, Y}, {396, Y}), words("small", 402, Y + 4, "delivery"),
     line("spawn", 466, Y, 496, Y), point(#row{}, {466, Y}, {496, Y}), words("small", 502, Y + 4, "spawn")].

%% ---- shapes

rectangle(Class, X, Y, Width, Height) ->
    ["<rect class=\"", Class, "\" x=\"", number(X), "\" y=\"", number(Y), "\" width=\"", number(Width),
     "\" height=\"", number(Height), "\"/>\n"].

line(Class, X1, Y1, X2, Y2) ->
    ["<line class=\"", Class, "\" x1=\"", number(X1), "\" y1=\"", number(Y1), "\" x2=\"", number(X2), "\" y2=\"",
     number(Y2), "\"/>\n"].

polygon(Class, Points) ->
    ["<polygon class=\"", Class, "\" points=\"", lists:join(" ", [[number(X), ",", number(Y)] || {X, Y} <- Points]),
     "\"/>\n"].

words(Class, X, Y, Text) ->
    ["<text class=\"", Class, "\" x=\"", number(X), "\" y=\"", number(Y), "\">", escaped(lists:flatten(Text)),
     "</text>\n"].

number(N) -> integer_to_list(round(N)).

escaped(Text) -> [escape(C) || C <- Text].

escape($<) -> "&lt;";
escape($>) -> "&gt;";
escape($&) -> "&amp;";
escape(C) when C < 32 -> $?;
escape(C) -> C.
