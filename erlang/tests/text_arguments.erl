%% Arguments of the library's functions that have to do with texts, numbers, time and output.
-module(text_arguments).

-export([kinds/0, argument/1]).

kinds() ->
    [{{list_to_atom(lists:concat([Module, ":", Function])), length(Kinds)}, [{text, Kind} || Kind <- Kinds]}
     || {Module, Functions} <- [{io_lib, of_io_lib()}, {io, of_io()}, {string, of_string()}, {erlang, of_erlang()},
                                {timer, [{now_diff, [stamp, stamp]}]}],
        {Function, Kinds} <- Functions].

of_io_lib() ->
    [{nl, []}, {format, [format, given]}, {fwrite, [format, given]}, {write, [term]}, {print, [term]}, {write_atom, [atom]},
     {write_string, [text]}, {printable_list, [text]}, {printable_latin1_list, [text]}, {latin1_char_list, [text]}, {char_list, [text]},
     {deep_char_list, [chars]}].

of_io() ->
    [{nl, []}, {nl, [device]}, {put_chars, [chars]}, {put_chars, [device, chars]}, {format, [format]}, {format, [format, given]},
     {format, [device, format, given]}, {fwrite, [format]}, {fwrite, [format, given]}, {fwrite, [device, format, given]},
     {write, [term]}, {write, [device, term]}].

of_string() ->
    [{len, [word]}, {concat, [word, word]}, {chr, [word, char]}, {rchr, [word, char]}, {str, [word, part]}, {rstr, [word, part]},
     {span, [word, part]}, {cspan, [word, part]}, {substr, [word, place]}, {substr, [word, place, place]}, {sub_string, [word, place]},
     {sub_string, [word, place, place]}, {tokens, [word, part]}, {chars, [char, place]}, {chars, [char, place, word]},
     {copies, [word, place]}, {words, [word]}, {words, [word, char]}, {sub_word, [word, place]}, {sub_word, [word, place, char]},
     {strip, [word]}, {strip, [word, side]}, {strip, [word, side, char]}, {left, [word, place]}, {left, [word, place, char]},
     {right, [word, place]}, {right, [word, place, char]}, {centre, [word, place]}, {centre, [word, place, char]}, {to_upper, [text]},
     {to_lower, [text]}, {join, [parts, part]},
     {is_empty, [chars]}, {length, [pieces]}, {to_graphemes, [pieces]}, {reverse, [pieces]},
     {next_codepoint, [word]}, {next_grapheme, [word]},
     {equal, [pieces, part]}, {equal, [pieces, part, bool]},
     {equal, [part, pieces, bool, form]}, {slice, [word, place]},
     {slice, [word, place, place]}, {pad, [word, place]}, {pad, [word, place, direction]}, {pad, [word, place, direction, char]},
     {trim, [word]}, {trim, [word, end_of]}, {trim, [word, end_of, part]}, {chomp, [word]}, {take, [word, part]},
     {take, [word, part, bool]},
     {take, [word, part, bool, start]}, {uppercase, [word]}, {lowercase, [word]}, {casefold, [word]}, {titlecase, [word]},
     {prefix, [word, part]}, {lexemes, [word, part]}, {nth_lexeme, [word, place, part]}, {find, [word, part]}, {find, [word, part, start]},
     {split, [word, part]}, {split, [word, part, where]}, {replace, [word, part, word]}, {replace, [word, part, word, where]},
     {to_integer, [numeral]}].

of_erlang() ->
    [{integer_to_list, [number, base]}, {list_to_integer, [numeral]}, {list_to_integer, [numeral, base]}, {'bsl', [small, shift]},
     {'bsr', [number, back]}, {phash2, [hashed]}, {phash2, [hashed, range]}, {phash, [hashed, range]},
     {atom_to_list, [atom]}, {list_to_atom, [name]},
     {list_to_existing_atom, [name]}, {convert_time_unit, [time, unit, unit]}, {round, [number]}, {trunc, [number]},
     {floor, [number]}, {ceil, [number]}, {size, [tuple]}, {insert_element, [place, tuple, term]}, {delete_element, [place, tuple]},
     {make_tuple, [place, term, places]}, {nodes, []}, {nodes, [nodes]}, {is_alive, []},
     {garbage_collect, []}, {garbage_collect, [pid]}, {yield, []}, {bump_reductions, [place]}, {apply, [applied, given_to]}].

%% ---- arguments

argument(format) -> {Format, Given} = format(), put(given, Given), Format;
argument(given) -> get(given);
argument(term) -> term(3);
argument(hashed) -> term(3);
argument(atom) -> atom();
argument(name) -> pick([atom_to_list(pick([true, false, ok, error, undefined])), [pick(["ok"])], [300 | "x"], [-1], [x]]);
argument(text) -> some(fun() -> pick([rand:uniform(128) - 1, rand:uniform(95) + 31, rand:uniform(300)]) end);
argument(chars) -> pick([binary(), [binary(), letter() | binary()], some(fun() -> rand:uniform(300) end),
                  [some(fun letter/0), [some(fun letter/0)]], [], [[], [[]]], [16#D800], [a]]);
argument(word) -> pick([some(fun letter/0), some(fun letter/0) ++ [$\s | some(fun letter/0)], some(fun() -> pick("ab ") end)]);
argument(pieces) -> pick([some(fun letter/0), [letter()], [[letter()], []], [some(fun letter/0), letter(), [some(fun letter/0)]]]);
argument(parts) -> some(fun() -> some(fun letter/0) end);
argument(part) -> pick([[letter()], [letter()], [letter(), letter()], "", " ", "ab"]);
argument(char) -> pick([letter(), letter(), $\s]);
argument(place) -> rand:uniform(7) - 1;
argument(side) -> pick([left, right, both]);
argument(direction) -> pick([leading, trailing, both]);
argument(end_of) -> pick([leading, trailing, both]);
argument(tuple) -> list_to_tuple(some(fun() -> rand:uniform(9) end));
argument(places) -> some(fun() -> {rand:uniform(5), atom()} end);
argument(start) -> pick([leading, trailing]);
argument(where) -> pick([leading, trailing, all]);
argument(bool) -> pick([true, false]);
argument(form) -> pick([none, nfc, nfd, nfkc, nfkd]);
argument(numeral) -> pick(["", "+", "-"]) ++ some(fun() -> pick("0123456789") end) ++ pick(["", "", "x", "Z", "-", " 1", "aF"]);
argument(base) -> pick([2, 8, 10, 16, 36, rand:uniform(38)]);
argument(number) -> pick([rand:uniform(300), -rand:uniform(1000000), 9223372036854775807, -9223372036854775808, 0, -1]);
argument(small) -> pick([rand:uniform(300), -rand:uniform(1000000), 0, -1]);
argument(shift) -> pick([rand:uniform(20), -rand:uniform(70), 0, -9223372036854775808]);
argument(back) -> pick([rand:uniform(70), -rand:uniform(2), 0, 9223372036854775807]);
argument(range) -> pick([1, rand:uniform(100), 1 bsl 27, 1 bsl 32, 0, (1 bsl 32) + 1]);
argument(time) -> pick([rand:uniform(1000000), -rand:uniform(10000), 1767225600000000000, 0]);
argument(unit) -> pick([second, millisecond, microsecond, nanosecond, native, 3, 1000, milli_seconds, minute]);
argument(stamp) -> {rand:uniform(9), rand:uniform(999999), rand:uniform(999999)};
argument(nodes) -> pick([this, known, visible, hidden, connected, [this, visible], [], [known, this], [none]]);
argument(pid) -> self();
argument(device) -> pick([standard_io, group_leader()]);
argument(applied) -> pick([fun() -> none end, fun(A) -> {A} end, fun(A, B) -> [A, B] end]);
argument(given_to) -> some(fun() -> rand:uniform(9) end).

letter() -> pick("abcABZz ,.\n").
some(Make) -> [Make() || _ <- lists:seq(1, rand:uniform(9) - 1)].
pick(L) -> lists:nth(rand:uniform(length(L)), L).

atom() -> pick([ok, true, 'EXIT', '$end_of_table', error, case_clause, badarg, none]).

term(0) -> pick([atom(), atom(), rand:uniform(300) - 50, -134217728, 134217728, 1 bsl 61, [], {}, "text",
                 "a\"\\\n" ++ [rand:uniform(255)]]);
term(N) ->
    case rand:uniform(6) of
        1 -> [term(N - 1) || _ <- lists:seq(1, rand:uniform(4))];
        2 -> list_to_tuple([term(N - 1) || _ <- lists:seq(1, rand:uniform(4))]);
        3 -> [term(N - 1) | term(N - 1)];
        4 -> some(fun() -> rand:uniform(260) - 1 end);
        _ -> term(0)
    end.

binary() -> pick([<<>>, <<"text">>, <<"a\"\n">>, <<200, 255>>, <<"l", 195, 164, "nge">>, <<226, 130, 172>>, <<240, 159, 152, 128>>,
                  list_to_binary(some(fun() -> rand:uniform(256) - 1 end)), list_to_binary(some(fun letter/0))]).

%% A term, a binary, or a map of such.
shown() -> pick([binary(), {x, binary()}, term(2), term(1),
                 maps:from_list([{term(0), term(1)} || _ <- lists:seq(1, rand:uniform(4) - 1)])]).

%% ---- formats

format() ->
    Parts = [part() || _ <- lists:seq(1, rand:uniform(5) - 1)],
    {Format, Given} = {lists:append([F || {F, _} <- Parts]), lists:append([A || {_, A} <- Parts])},
    case rand:uniform(12) of
        1 -> {Format, Given ++ [x]};
        2 -> {Format ++ pick(["~p", "~q", "~", "~5", "~-"]), Given};
        3 -> {pick([ok, 7, "~" ++ [$\s | Format], list_to_binary(Format), list_to_binary(Format)]), Given};
        _ -> {Format, Given}
    end.

part() -> pick([{some(fun letter/0), []}, with("p", shown()), with("p", shown()), with("w", shown()), with("s", string()),
                with("s", atom()), with("b", integer()), with("B", integer()), with("c", rand:uniform(400)), with("+", integer()),
                with("#", integer()),
                {"~W", [term(1), rand:uniform(9)]}, {"~P", [term(1), rand:uniform(9)]}, {"~.2f", [integer()]},
                with("i", term(1)), with_none("n"), with_none("~"), prefixed("x"), prefixed("X"), with("s", term(0)), with("b", term(0)),
                {"~*w", [rand:uniform(9), term(0)]}, {"~.*s", [rand:uniform(9), string()]}, {"~8..*b", [$0, integer()]}]).

with(Control, Argument) -> {"~" ++ field(Control) ++ modifier(Control) ++ Control, [Argument]}.
with_none(Control) -> {"~" ++ field(Control) ++ Control, []}.
prefixed(Control) -> {"~" ++ field("b") ++ Control, [integer(), pick(["0x", ok, "", [x]])]}.

field(C) when C =:= "p"; C =:= "n"; C =:= "~" -> pick(["", "", "", "60", "3", "40.3"]);
field(C) when C =:= "b"; C =:= "B"; C =:= "+"; C =:= "#" -> pick(["", "5", "-5", ".16", "12.2.0", ".8", ".37", "2"]);
field(_) -> pick(["", "", "5", "-7", "10.4", "-10.4.x", ".3", "4.9", "6.6", "12"]).

modifier(C) when C =:= "p"; C =:= "w"; C =:= "s"; C =:= "c" -> pick(["", "", "t", "l", "tl"]);
modifier(_) -> "".

string() -> pick([binary(), [binary(), letter() | binary()], some(fun letter/0),
                  [some(fun letter/0), letter(), [[letter()]]], [300 | "x"], "abc" ++ [200]]).
integer() -> pick([rand:uniform(300), -rand:uniform(100000), 0]).
