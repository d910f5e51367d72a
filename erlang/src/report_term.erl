%% Terms as a transcript spells them, read and written as an Erlang programmer writes them.
%%
%% A term that was read is {int, N}, {atom, A}, {tuple, Terms}, {list, Terms, Tail}, {pid, Name} or {ref, Name}; the
%% tail of a proper list is nil.
-module(report_term).
-export([read/1, read_arguments/1, escaped/1, text/1, text_of_items/1, text_of_fun/2, is_byte/1, real/2, of_real/2, names/1]).

%% ---- reading

%% The term at the beginning of a text, and what comes after it.
read("'" ++ Rest) -> read_atom(Rest, []);
read("{" ++ Rest) -> {Terms, Behind} = read_parts(Rest, $}, []), {{tuple, Terms}, Behind};
read("[" ++ Rest) -> read_list(Rest, []);
read("#P" ++ Rest) -> {Path, Behind} = read_path(Rest), {{ref, "#P" ++ Path}, Behind};
read("P" ++ Rest) -> {Path, Behind} = read_path(Rest), {{pid, "P" ++ Path}, Behind};
read("-" ++ Rest) -> {N, Behind} = read_number(Rest), {{int, -N}, Behind};
read(Text) -> {N, Behind} = read_number(Text), {{int, N}, Behind}.

%% The arguments of a call, from after the opening bracket.
read_arguments(Text) -> read_parts(Text, $), []).

read_parts([Close | Rest], Close, Terms) -> {lists:reverse(Terms), Rest};
read_parts("," ++ Rest, Close, Terms) -> read_parts(Rest, Close, Terms);
read_parts(Text, Close, Terms) -> {Term, Rest} = read(Text), read_parts(Rest, Close, [Term | Terms]).

read_list("]" ++ Rest, Terms) -> {{list, lists:reverse(Terms), nil}, Rest};
read_list("," ++ Rest, Terms) -> read_list(Rest, Terms);
read_list("|" ++ Rest, Terms) -> {Tail, "]" ++ Behind} = read(Rest), {{list, lists:reverse(Terms), Tail}, Behind};
read_list(Text, Terms) -> {Term, Rest} = read(Text), read_list(Rest, [Term | Terms]).

read_path(Text) -> lists:splitwith(fun(C) -> C =:= $. orelse is_digit(C) end, Text).

read_number(Text) ->
    {Digits, Behind} = lists:splitwith(fun is_digit/1, Text),
    {list_to_integer(Digits), Behind}.

is_digit(C) -> C >= $0 andalso C =< $9.

read_atom("'" ++ Rest, Characters) -> {{atom, list_to_atom(lists:reverse(Characters))}, Rest};
read_atom([$\\, A, B, C | Rest], Characters) when A >= $0, A =< $7 ->
    read_atom(Rest, [list_to_integer([A, B, C], 8) | Characters]);
read_atom([$\\, C | Rest], Characters) -> read_atom(Rest, [escaped(C) | Characters]);
read_atom([C | Rest], Characters) -> read_atom(Rest, [C | Characters]).

%% The character that a letter after a backslash stands for.
escaped($b) -> 8;
escaped($t) -> 9;
escaped($n) -> 10;
escaped($v) -> 11;
escaped($f) -> 12;
escaped($r) -> 13;
escaped($e) -> 27;
escaped($d) -> 127;
escaped(C) -> C.

%% ---- writing

%% The text that a programmer would write: atoms with quotes only where they need them, strings, functions as values by
%% their names, maps, binaries.
text({int, N}) -> integer_to_list(N);
text({atom, A}) -> lists:flatten(io_lib:format("~tw", [A]));
text({pid, Name}) -> Name;
text({ref, Name}) -> Name;
text({tuple, [{atom, 'fun'}, {atom, Name}, {int, Arity}, {list, _, nil} | Filling]} = Tuple) ->
    case is_filling(Filling) of
        true -> text_of_fun(Name, Arity);
        false -> text_of_tuple(Tuple)
    end;
text({tuple, [{atom, map}, {list, Pairs, nil}, Filler | Filling]} = Tuple) ->
    case is_filling([Filler | Filling]) andalso lists:all(fun is_pair/1, Pairs) of
        true -> ["#{", lists:join(",", [[text(K), " => ", text(V)] || {tuple, [K, V]} <- Pairs]), "}"];
        false -> text_of_tuple(Tuple)
    end;
text({tuple, [{atom, binary}, {list, Bytes, nil}, Filler | Filling]} = Tuple) ->
    case is_filling([Filler | Filling]) andalso lists:all(fun is_byte/1, Bytes) of
        true -> text_of_binary([B || {int, B} <- Bytes]);
        false -> text_of_tuple(Tuple)
    end;
%% (what EUnit says of the text of an assertion)
text({tuple, [{atom, Tag}, {list, [_ | _] = Terms, nil}]} = Tuple) when Tag =:= expression; Tag =:= pattern ->
    case lists:all(fun is_printable/1, Terms) of
        true -> ["{", atom_to_list(Tag), ",", io_lib:write_string([C || {int, C} <- Terms]), "}"];
        false -> text_of_tuple(Tuple)
    end;
text({tuple, _} = Tuple) -> text_of_tuple(Tuple);
text({list, Terms, nil} = List) ->
    case is_string(Terms) of
        true -> io_lib:write_string([C || {int, C} <- Terms]);
        false -> text_of_list(List)
    end;
text({list, _, _} = List) -> text_of_list(List).

text_of_tuple({tuple, Terms}) -> ["{", lists:join(",", [text(Term) || Term <- Terms]), "}"].

%% A list that is none of characters, whatever is in it.
text_of_items({list, _, _} = List) -> text_of_list(List).

text_of_list({list, Terms, nil}) -> ["[", lists:join(",", [text(Term) || Term <- Terms]), "]"];
text_of_list({list, Terms, Tail}) -> ["[", lists:join(",", [text(Term) || Term <- Terms]), "|", text(Tail), "]"].

%% The converter makes these tuples longer than any other of the module.
is_filling(Terms) -> lists:all(fun(Term) -> Term =:= {atom, '-'} end, Terms).

is_pair({tuple, [_, _]}) -> true;
is_pair(_) -> false.

is_byte({int, B}) -> B >= 0 andalso B < 256;
is_byte(_) -> false.

%% <<"abc">> where all of it can be printed in ASCII, <<"größe"/utf8>> where it is such a text, else <<1,2,255>>.
text_of_binary([]) -> "<<>>";
text_of_binary(Bytes) ->
    case {lists:all(fun(B) -> B < 128 end, Bytes), unicode:characters_to_list(list_to_binary(Bytes))} of
        {IsAscii, [_ | _] = Text} ->
            case io_lib:printable_unicode_list(Text) of
                true -> ["<<", io_lib:write_string(Text), ["/utf8" || not IsAscii], ">>"];
                false -> text_of_bytes(Bytes)
            end;
        _ -> text_of_bytes(Bytes)
    end.

text_of_bytes(Bytes) -> ["<<", lists:join(",", [integer_to_list(B) || B <- Bytes]), ">>"].

%% `fun in main/0 line 8` is the name of a fun without one, any other name that of a function.
text_of_fun(Name, Arity) ->
    case atom_to_list(Name) of
        "fun in " ++ _ = Text -> Text;
        Text -> ["fun ", Text, "/", integer_to_list(Arity)]
    end.

%% A list of two characters or more is a string where the shell of Erlang shows it as one.
is_string([_, _ | _] = Terms) -> lists:all(fun is_printable/1, Terms);
is_string(_) -> false.

is_printable({int, C}) -> io_lib:printable_latin1_list([C]);
is_printable(_) -> false.

%% ---- terms of the machine

%% The names of processes and references in a term.
names({pid, _} = Name) -> [Name];
names({ref, _} = Name) -> [Name];
names({tuple, Terms}) -> lists:flatmap(fun names/1, Terms);
names({list, Terms, nil}) -> lists:flatmap(fun names/1, Terms);
names({list, Terms, Tail}) -> names(Tail) ++ lists:flatmap(fun names/1, Terms);
names(_) -> [].

%% The term with the machine's own processes and references in the place of names.
real({int, N}, _) -> N;
real({atom, A}, _) -> A;
real({tuple, Terms}, Named) -> list_to_tuple([real(Term, Named) || Term <- Terms]);
real({list, Terms, nil}, Named) -> [real(Term, Named) || Term <- Terms];
real({list, Terms, Tail}, Named) -> [real(Term, Named) || Term <- Terms] ++ real(Tail, Named);
real(Name, Named) -> maps:get(Name, Named).

%% The other way, for terms that the machine made; what has no name is written as the machine does.
of_real(N, _) when is_integer(N) -> {int, N};
of_real(A, _) when is_atom(A) -> {atom, A};
of_real(T, Names) when is_tuple(T) -> {tuple, [of_real(Term, Names) || Term <- tuple_to_list(T)]};
of_real([], _) -> {list, [], nil};
of_real([_ | _] = List, Names) -> of_list(List, [], Names);
of_real(Term, Names) -> maps:get(Term, Names, {atom, list_to_atom(lists:flatten(io_lib:format("~tp", [Term])))}).

of_list([Term | Rest], Terms, Names) -> of_list(Rest, [of_real(Term, Names) | Terms], Names);
of_list([], Terms, _) -> {list, lists:reverse(Terms), nil};
of_list(Tail, Terms, Names) -> {list, lists:reverse(Terms), of_real(Tail, Names)}.
