%% The text of a module of Core Erlang. What can end or hold up a process (calls, applications,
%% receives, failures) has its line of the source as a note, with the file where it is another one.
-module(core_text).

-export([module/4]).

-include("core.hrl").

%% A text of this many bytes is written without blanks at the beginning of its lines: few read it, and it is a fifth of it.
-define(LARGE, 200000).

%% The module of a name, with these exports, which allows so many applications between two requests, or none where nothing is
%% said of that.
module(File, Name, {Exports, Applications}, Definitions) ->
    Head = ["module ", atom(Name), " [", joined([function_name(E) || E <- Exports]), "]\n    attributes [", allowing(Applications), "]\n"],
    Indented = unicode:characters_to_binary([Head, [definition(File, 4, D) || D <- Definitions], "end\n"]),
    case byte_size(Indented) > ?LARGE of
        true -> [Head, [definition(File, -?LARGE, D) || D <- Definitions], "end\n"];
        false -> Indented
    end.

allowing(none) -> "";
allowing(Number) -> [atom(explore_applications), " = [", integer_to_list(Number), "]"].

definition(File, Indent, #definition{name = Name, origin = Origin, code = #c_fun{vars = Vars, body = Body}}) ->
    [function_name(Name), " =\n  fun (", joined([variable(V) || V <- Vars]), ") ->",
     line_end(Indent), expression(Body, {Indent, source(Origin, File)}), "\n"].

source(source, File) -> {source, File};
source(_, _) -> library.

function_name({F, A}) -> [atom(F), "/", integer_to_list(A)].
%% Limits the indent, so that a long function is not mostly blanks.
line_end(Indent) -> ["\n", lists:duplicate(max(0, min(Indent, 80)), $ )].
joined(Texts) -> lists:join(",", Texts).

%% An expression, where {Indent, Origin}: how far lines are moved to the right, and whether
%% lines of the source are noted ({source, File}), or not (library, and inside guards).
expression(#c_literal{val = V}, _) -> literal(V);
expression(#c_var{} = V, _) -> variable(V);
expression(#c_tuple{es = Es}, Where) -> ["{", expressions(Es, Where), "}"];
expression(#c_cons{} = C, Where) -> list(C, fun(E) -> expression(E, Where) end);
expression(#c_values{es = Es}, Where) -> ["<", expressions(Es, Where), ">"];
expression(#c_let{vars = Vars, arg = Arg, body = Body}, {I, _} = Where) ->
    ["let <", joined([variable(V) || V <- Vars]), "> =", line_end(I + 4), expression(Arg, deeper(4, Where)),
     line_end(I), "in ", expression(Body, Where)];
expression(#c_seq{arg = Arg, body = Body}, {I, _} = Where) ->
    ["do ", expression(Arg, deeper(3, Where)), line_end(I), "   ", expression(Body, deeper(3, Where))];
expression(#c_case{arg = Arg, clauses = Clauses}, {I, _} = Where) ->
    ["case ", expression(Arg, deeper(4, Where)), " of", clauses(Clauses, Where), line_end(I), "end"];
expression(#c_try{arg = Arg, vars = Vars, body = Body, evars = Caught, handler = Handler}, {I, _} = Where) ->
    Inner = deeper(4, Where),
    ["try", line_end(I + 4), expression(Arg, Inner),
     line_end(I), "of <", joined([variable(V) || V <- Vars]), "> ->", line_end(I + 4), expression(Body, Inner),
     line_end(I), "catch <", joined([variable(V) || V <- Caught]), "> ->", line_end(I + 4), expression(Handler, Inner)];
expression(#c_catch{body = Body}, Where) -> ["catch ", expression(Body, deeper(2, Where))];
expression(#c_receive{clauses = Clauses, timeout = Timeout, action = Action} = N, {I, _} = Where) ->
    noted(N, Where, ["receive", clauses(Clauses, Where), line_end(I), "after ", expression(Timeout, deeper(6, Where)), " ->",
                     line_end(I + 2), expression(Action, deeper(2, Where))]);
expression(#c_apply{op = #c_var{name = Name}, args = Args} = N, Where) ->
    noted(N, Where, ["apply ", function_name(Name), "(", expressions(Args, Where), ")"]);
expression(#c_call{module = #c_literal{val = M}, name = #c_literal{val = F}, args = Args} = N, Where) ->
    noted(N, Where, ["call ", atom(M), ":", atom(F), "(", expressions(Args, Where), ")"]);
expression(#c_primop{name = #c_literal{val = P}, args = Args} = N, Where) ->
    noted(N, Where, ["primop ", atom(P), "(", expressions(Args, Where), ")"]).

expressions(Es, Where) -> joined([expression(E, Where) || E <- Es]).

deeper(More, {Indent, Origin}) -> {Indent + More, Origin}.

noted(_, {_, library}, Text) -> Text;
noted(Node, {_, {source, File}}, Text) ->
    case core_tree:place(Node, {File, 0}) of
        {_, 0} -> Text;
        {File, Line} -> ["( ", Text, " -| [", integer_to_list(Line), "] )"];
        {Other, Line} -> ["( ", Text, " -| [", integer_to_list(Line), ",{'file',", literal(Other), "}] )"]
    end.

clauses(Clauses, {I, _} = Where) -> [[line_end(I + 2), clause(C, deeper(2, Where))] || C <- Clauses].

clause(#c_clause{pats = Patterns, guard = Guard, body = Body}, {I, _} = Where) ->
    ["<", joined([pattern(P) || P <- Patterns]), "> when ", expression(Guard, {I + 4, library}), " ->",
     line_end(I + 4), expression(Body, deeper(4, Where))].

pattern(#c_literal{val = V}) -> literal(V);
pattern(#c_var{} = V) -> variable(V);
pattern(#c_alias{var = V, pat = P}) -> [variable(V), " = ", pattern(P)];
pattern(#c_tuple{es = Es}) -> ["{", joined([pattern(P) || P <- Es]), "}"];
pattern(#c_cons{} = C) -> list(C, fun pattern/1).

%% A list is one level, however long it is.
list(#c_cons{hd = H, tl = T}, Text) -> ["[", Text(H), tail(T, Text), "]"].

tail(#c_literal{val = []}, _) -> [];
tail(#c_cons{hd = H, tl = T}, Text) -> [",", Text(H), tail(T, Text)];
tail(#c_literal{val = [H | T]}, Text) -> [",", Text(core_tree:literal(H)), tail(core_tree:literal(T), Text)];
tail(T, Text) -> ["|", Text(T)].

literal(V) when is_integer(V) -> integer_to_list(V);
literal(V) when is_atom(V) -> atom(V);
literal([]) -> "[]";
literal(V) when is_tuple(V) -> ["{", joined([literal(X) || X <- tuple_to_list(V)]), "}"];
literal([H | T]) -> ["[", literal(H), literal_tail(T), "]"].

literal_tail([]) -> [];
literal_tail([H | T]) -> [",", literal(H), literal_tail(T)];
literal_tail(T) -> ["|", literal(T)].

%% One text for one variable: those of the source as they are, except for an underscore in front,
%% which those of the compiler and of the converter get, and for letters past ASCII.
variable(#c_var{name = N}) when is_integer(N) -> ["_", integer_to_list(N)];
variable(#c_var{name = Name}) ->
    Text = atom_to_list(Name),
    case {lists:all(fun is_plain/1, Text), Text} of
        {false, _} -> ["_x", [io_lib:format("~.16b_", [C]) || C <- Text]];
        {true, [$_ | _]} -> ["_X", Text];
        {true, [C | _]} when C >= $A, C =< $Z -> Text;
        {true, _} -> ["_", Text]
    end.

is_plain(C) -> C >= $A andalso C =< $Z orelse C >= $a andalso C =< $z orelse C >= $0 andalso C =< $9 orelse C =:= $_ orelse C =:= $@.

atom(A) -> ["'", [character(C) || C <- atom_to_list(A)], "'"].

character($') -> "\\'";
character($\\) -> "\\\\";
character(C) when C < 32; C =:= 127 -> io_lib:format("\\~3.8.0b", [C]);
character(C) -> C.
