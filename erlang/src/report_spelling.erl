%% A term as the report shows it and a programmer types it, in the spelling that the program reads: the other way round
%% than report_term:text/1. `_` is read as the atom '_', which stands for any term.
%%
%% Terms are those of report_term. A map is {map, Pairs}, a binary {binary, Bytes} and a function {function, Name} until it
%% is known which tuples they are in the module (erlang/README.md, "Functions, maps and binaries as values").
-module(report_spelling).
-export([spelled/2]).

%% {ok, Spelling}; or {no_term, N} where the N-th character begins nothing that a term goes on with; or
%% {not_there, Name} where that is no function of the module which can be told by its name. Module is the Core module, or
%% none.
spelled(Text, Module) ->
    try {ok, lists:flatten(spelling(in_module(whole(Text), Module)))}
    catch
        throw:{no_term, Rest} -> {no_term, length(Text) - length(Rest) + 1};
        throw:{not_there, Name} -> {not_there, Name}
    end.

whole(Text) ->
    {Term, Rest} = read(Text),
    case skip(Rest) of
        "" -> Term;
        More -> no_term(More)
    end.

no_term(Rest) -> throw({no_term, Rest}).

%% ---- reading

%% The term at the beginning of a text, and what comes after it. Blanks may come between its parts.
read(Text) -> read_term(skip(Text)).

read_term("'" ++ _ = Text) -> {Name, Rest} = read_quoted(Text), {atom(Name, Text), Rest};
read_term("\"" ++ _ = Text) -> {String, Rest} = read_quoted(Text), {list_of([{int, C} || C <- String]), Rest};
read_term("{" ++ Rest) -> {Terms, After} = read_parts(Rest, "}"), {{tuple, Terms}, After};
read_term("[" ++ Rest) -> read_list(Rest);
read_term("#{" ++ Rest) -> read_map(Rest);
read_term("<<" ++ Rest) -> read_binary(Rest);
read_term("#P" ++ Rest) -> {Path, After} = read_path(Rest), {{ref, "#P" ++ Path}, After};
read_term("P" ++ Rest) -> {Path, After} = read_path(Rest), {{pid, "P" ++ Path}, After};
read_term("fun " ++ _ = Text) -> {Name, Rest} = read_function(Text), {{function, Name}, Rest};
read_term("_" ++ Rest = Text) -> {atom("_", Text), unnamed(Rest, Text)};
read_term("-" ++ Rest = Text) -> {N, After} = read_number(Rest), {integer(-N, Text), After};
read_term([C | _] = Text) when C >= $0, C =< $9 -> {N, After} = read_number(Text), {integer(N, Text), After};
read_term([C | _] = Text) ->
    is_small(C) orelse no_term(Text),
    {Name, After} = lists:splitwith(fun is_of_name/1, Text),
    {atom(Name, Text), After};
read_term("") -> no_term("").

%% What comes after `_`, which is no beginning of a name.
unnamed([C | _] = Rest, Text) -> not is_of_name(C) orelse no_term(Text), Rest;
unnamed("", _) -> "".

skip(Text) -> lists:dropwhile(fun(C) -> C =:= $\s orelse C =:= $\t orelse C =:= $\n end, Text).

is_small(C) -> C >= $a andalso C =< $z orelse C >= $ß andalso C =< $ÿ andalso C =/= $÷.

is_large(C) -> C >= $A andalso C =< $Z orelse C >= $À andalso C =< $Þ andalso C =/= $×.

is_of_name(C) -> is_small(C) orelse is_large(C) orelse is_digit(C) orelse C =:= $_ orelse C =:= $@.

is_digit(C) -> C >= $0 andalso C =< $9.

list_of(Terms) -> {list, Terms, nil}.

%% The machine has no longer atoms.
atom(Name, Text) when length(Name) > 255 -> no_term(Text);
atom(Name, _) -> {atom, list_to_atom(Name)}.

%% Integers of the explorer have 64 bits.
integer(N, _) when N >= -16#8000000000000000, N < 16#8000000000000000 -> {int, N};
integer(_, Text) -> no_term(Text).

read_number(Text) ->
    case lists:splitwith(fun is_digit/1, Text) of
        {"", _} -> no_term(Text);
        {Digits, Rest} -> {list_to_integer(Digits), Rest}
    end.

%% What comes after the P of a process: `.3.1`.
read_path("." ++ [C | _] = Text) when C >= $1, C =< $9 ->
    {Number, Rest} = read_number(tl(Text)),
    {Path, After} = read_path(Rest),
    {"." ++ integer_to_list(Number) ++ Path, After};
read_path([C | _] = Text) ->
    C =/= $. andalso not is_of_name(C) orelse no_term(Text),
    {"", Text};
read_path("") -> {"", ""}.

%% Terms with commas between them, up to the closing bracket.
read_parts(Text, [Close]) ->
    case skip(Text) of
        [Close | Rest] -> {[], Rest};
        Other -> read_parts(Other, Close, [])
    end.

read_parts(Text, Close, Terms) ->
    {Term, Rest} = read(Text),
    case skip(Rest) of
        [Close | After] -> {lists:reverse([Term | Terms]), After};
        "," ++ After -> read_parts(After, Close, [Term | Terms]);
        Other -> no_term(Other)
    end.

read_list(Text) ->
    case skip(Text) of
        "]" ++ Rest -> {list_of([]), Rest};
        Other -> read_items(Other, [])
    end.

read_items(Text, Terms) ->
    {Term, Rest} = read(Text),
    Read = [Term | Terms],
    case skip(Rest) of
        "]" ++ After -> {list_of(lists:reverse(Read)), After};
        "," ++ After -> read_items(After, Read);
        "|" ++ After ->
            {Tail, Last} = read(After),
            {with_tail(lists:reverse(Read), Tail), expect("]", Last)};
        Other -> no_term(Other)
    end.

%% A list whose tail is a list is one list.
with_tail(Terms, {list, More, Tail}) -> {list, Terms ++ More, Tail};
with_tail(Terms, Tail) -> {list, Terms, Tail}.

read_map(Text) ->
    case skip(Text) of
        "}" ++ Rest -> {{map, []}, Rest};
        Other -> read_pairs(Other, [])
    end.

read_pairs(Text, Pairs) ->
    {Key, Rest} = read(Text),
    {Value, After} = read(expect("=>", Rest)),
    Read = [{tuple, [Key, Value]} | Pairs],
    case skip(After) of
        "}" ++ Last -> {{map, lists:reverse(Read)}, Last};
        "," ++ More -> read_pairs(More, Read);
        Other -> no_term(Other)
    end.

%% A string in quotes, or bytes with commas between them.
read_binary(Text) ->
    case skip(Text) of
        "\"" ++ _ = String ->
            {Characters, Rest} = read_quoted(String),
            {Bytes, After} = encoded(Characters, skip(Rest)),
            {binary([{int, B} || B <- Bytes], Text), expect(">>", After)};
        ">>" ++ Rest -> {{binary, []}, Rest};
        Numbers -> {Bytes, Rest} = read_bytes(Numbers), {binary(Bytes, Text), Rest}
    end.

%% The bytes of a string in a binary, which are its characters, or those of UTF-8.
encoded(Characters, "/utf8" ++ Rest) -> {binary_to_list(unicode:characters_to_binary(Characters)), Rest};
encoded(Characters, Rest) -> {Characters, Rest}.

read_bytes(Text) ->
    {Byte, Rest} = read(Text),
    case skip(Rest) of
        ">>" ++ After -> {[Byte], After};
        "," ++ More -> {Bytes, After} = read_bytes(More), {[Byte | Bytes], After};
        Other -> no_term(Other)
    end.

binary(Bytes, Text) ->
    lists:all(fun report_term:is_byte/1, Bytes) orelse no_term(Text),
    {binary, Bytes}.

expect(Mark, Text) ->
    case lists:prefix(Mark, skip(Text)) of
        true -> lists:nthtail(length(Mark), skip(Text));
        false -> no_term(skip(Text))
    end.

%% The name of a function has blanks in it, and goes on to the end of what it is a part of.
read_function(Text) ->
    {Name, Rest} = lists:splitwith(fun(C) -> not lists:member(C, ",]}|=") end, Text),
    {string:trim(Name, trailing), Rest}.

%% What is in quotes, and what comes after them.
read_quoted([Quote | Text] = Whole) -> read_quoted(Text, Quote, [], Whole).

read_quoted([Quote | Rest], Quote, Read, _) -> {lists:reverse(Read), Rest};
read_quoted([$\\, A, B, C | Rest], Quote, Read, Whole) when A >= $0, A =< $7, B >= $0, B =< $7, C >= $0, C =< $7 ->
    read_quoted(Rest, Quote, [list_to_integer([A, B, C], 8) | Read], Whole);
read_quoted([$\\, C | Rest], Quote, Read, Whole) -> read_quoted(Rest, Quote, [escaped(C) | Read], Whole);
read_quoted([C | Rest], Quote, Read, Whole) -> read_quoted(Rest, Quote, [C | Read], Whole);
read_quoted("", _, _, Whole) -> no_term(Whole).

escaped($s) -> $\s;
escaped(C) -> report_term:escaped(C).

%% ---- functions, maps and binaries, as the tuples that they are in the module

in_module({map, Pairs}, Module) -> filled([{atom, map}, list_of(sorted([in_module(P, Module) || P <- Pairs]))], Module);
in_module({binary, Bytes}, Module) -> filled([{atom, binary}, list_of(Bytes)], Module);
in_module({function, Text}, Module) -> function(Text, Module);
in_module({tuple, Terms}, Module) -> {tuple, [in_module(Term, Module) || Term <- Terms]};
in_module({list, Terms, Tail}, Module) -> {list, [in_module(Term, Module) || Term <- Terms], in_module(Tail, Module)};
in_module(Term, _) -> Term.

%% Pairs in the order of keys; those with names of processes or references as they are shown, which is that order.
sorted(Pairs) ->
    try [{report_term:real(Pair, #{}), Pair} || Pair <- Pairs] of
        Real -> [Pair || {_, Pair} <- lists:sort(Real)]
    catch
        error:{badkey, _} -> Pairs
    end.

%% A function that took no values along is known by its name.
function(Text, Module) ->
    Known = [{Name, Arity} || {Name, Arity, 0, _} <- functions(Module), shown(Name, Arity) =:= Text],
    case Known of
        [{Name, Arity} | _] -> filled([{atom, 'fun'}, {atom, Name}, {int, Arity}, list_of([])], Module);
        [] -> throw({not_there, Text})
    end.

shown(Name, Arity) -> lists:flatten(report_term:text_of_fun(Name, Arity)).

filled(Parts, Module) -> {tuple, Parts ++ [{atom, '-'} || _ <- lists:seq(length(Parts) + 1, size_of_values(Module))]}.

%% How many parts the tuples have that represent such values: as many as those in the module, or the least number
%% where there are none.
size_of_values(Module) -> hd([Size || {_, _, _, Size} <- functions(Module)] ++ maps_and_binaries(Module) ++ [4]).

functions(Module) ->
    [{cerl:concrete(Name), cerl:concrete(Arity), cerl:list_length(Taken), length(Parts)} ||
        [Tag, Name, Arity, Taken | Filling] = Parts <- tuples(Module),
        is_atom(Tag, 'fun'), cerl:is_c_atom(Name), cerl:is_c_int(Arity), cerl:is_c_list(Taken), is_filling(Filling)].

maps_and_binaries(Module) ->
    [length(Parts) || [Tag, _, Filler | Filling] = Parts <- tuples(Module),
                      is_atom(Tag, map) orelse is_atom(Tag, binary), is_filling([Filler | Filling])].

is_filling(Trees) -> lists:all(fun(Tree) -> is_atom(Tree, '-') end, Trees).

is_atom(Tree, Atom) -> cerl:is_c_atom(Tree) andalso cerl:atom_val(Tree) =:= Atom.

%% The parts of each tuple of the module.
tuples(none) -> [];
tuples(Module) ->
    cerl_trees:fold(fun(Tree, Sum) ->
                            case cerl:is_c_tuple(Tree) of
                                true -> [cerl:tuple_es(Tree) | Sum];
                                false -> Sum
                            end
                    end, [], Module).

%% ---- writing

spelling({int, N}) -> integer_to_list(N);
spelling({atom, A}) -> [$', [character(C) || C <- atom_to_list(A)], $'];
spelling({pid, Name}) -> Name;
spelling({ref, Name}) -> Name;
spelling({tuple, Terms}) -> [${, joined(Terms), $}];
spelling({list, Terms, nil}) -> [$[, joined(Terms), $]];
spelling({list, Terms, Tail}) -> [$[, joined(Terms), $|, spelling(Tail), $]].

joined(Terms) -> lists:join($,, [spelling(Term) || Term <- Terms]).

character(C) when C =:= $'; C =:= $\\ -> [$\\, C];
character(C) when C < 32; C =:= 127 ->
    case [Letter || Letter <- "btnvfred", report_term:escaped(Letter) =:= C] of
        [Letter] -> [$\\, Letter];
        [] -> io_lib:format("\\~3.8.0b", [C])
    end;
character(C) -> C.
