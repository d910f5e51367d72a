%% Random sequences of calls that change parts of objects: update_counter and update_element in all their forms, of tables of
%% each kind, by the owner and by others. Of their arguments some are wrong, so that the call is refused and nothing changes.
%% Each sequence gives on the real machine what the explorer finds, and leaves the same objects. A key that is missing gets no
%% wrong changes: the explorer refuses them, and the machine answers false (docs/DECISIONS.md).
-module(random_tables).

-export([all/3]).

-define(PIECES, 200).
-define(CALLS, 16).

all(Program, Folder, Library) ->
    rand:seed(exsss, {16, 17, 18}),
    Blocks = [{lists:concat(["table ", N]), [], piece()} || N <- lists:seq(1, ?PIECES)],
    [snippet_tests:one("random", Block, {Program, Folder, Library}) || Block <- Blocks].

piece() ->
    Place = pick([1, 1, 2, 3]),
    Options = [pick(["set", "set", "set", "ordered_set", "ordered_set", "bag", "duplicate_bag"]), ", {keypos, ", text(Place), "}",
               pick(["", "", ", private", ", public", ", {heir, self(), x}"])],
    Objects = [object(Key, Place) || Key <- ["a", "b", "c"], chance(70)],
    Calls = [asked(Place) || _ <- lists:seq(1, ?CALLS)],
    [lists:flatten(Line) || Line <-
        [["run() -> T = ets:new(t, [", Options, "]), ets:insert(T, [", lists:join(", ", Objects), "]),\n    {[",
          lists:join(",\n    ", Calls), "], lists:sort(ets:tab2list(T)), items(T)}."],
         "items(T) -> [I || {Item, _} = I <- ets:info(T), lists:member(Item, [name, owner, heir, size, type, protection, keypos, named_table])].",
         "changed(T, Key, Changes) -> case ets:member(T, Key) of true -> ets:update_element(T, Key, Changes); false -> ets:update_element(T, Key, []) end.",
         "tried(F) -> try F() catch error:E -> E end.",
         "in_child(F) -> Me = self(), P = spawn(fun() -> Me ! {self(), F()} end), receive {P, X} -> X end.",
         "id(X) -> X."]].

pick(L) -> lists:nth(rand:uniform(length(L)), L).
chance(Percent) -> rand:uniform(100) =< Percent.
text(N) -> integer_to_list(N).
number() -> text(rand:uniform(13) - 7).
part() -> pick([number(), number(), number(), number(), "x", "{y}"]).
hidden(Text) -> ["id(", Text, ")"].

%% An object that has a part at the place of the key, which is the key.
object(Key, Place) ->
    Parts = [part() || _ <- lists:seq(1, Place + rand:uniform(4) - 1)],
    ["{", lists:join(", ", lists:sublist(Parts, Place - 1) ++ [Key | lists:nthtail(Place, Parts)]), "}"].

asked(Place) ->
    case rand:uniform(12) of
        1 -> ["in_child(fun() -> tried(fun() -> ", call(Place), " end) end)"];
        _ -> ["tried(fun() -> ", call(Place), " end)"]
    end.

call(Place) ->
    Key = hidden(pick(["a", "a", "b", "b", "c", "d", "e"])),
    case rand:uniform(16) of
        N when N =< 5 -> ["ets:update_counter(T, ", Key, ", ", hidden(increment()), ")"];
        N when N =< 9 -> ["ets:update_counter(T, ", Key, ", ", hidden(increment()), ", ", hidden(default(Place)), ")"];
        N when N =< 13 -> ["changed(T, ", Key, ", ", hidden(changes()), ")"];
        14 -> ["ets:take(T, ", Key, ")"];
        15 -> ["ets:insert(T, ", object(pick(["a", "b", "c"]), Place), ")"];
        16 -> pick([["ets:lookup(T, ", Key, ")"], "items(T)", "lists:sort(ets:tab2list(T))"])
    end.

increment() ->
    case rand:uniform(12) of
        N when N =< 2 -> number();
        N when N =< 6 -> addition();
        N when N =< 10 -> list(fun addition/0);
        _ -> pick(["x", "[]", "{}", "[1]", "[{2, 1} | x]", "[x]", "[[{2, 1}]]"])
    end.

%% A limit keeps a large sum from being more than the explorer has.
addition() ->
    case rand:uniform(20) of
        N when N =< 9 -> ["{", place(), ", ", number(), "}"];
        N when N =< 17 -> ["{", place(), ", ", number(), ", ", number(), ", ", number(), "}"];
        18 -> ["{", place(), ", ", pick(["9223372036854775807", "-9223372036854775808"]), ", ", number(), ", ", number(), "}"];
        19 -> pick(["{2, x}", "{x, 1}", "{2}", "{2, 1, 1}", "{2, 1, x, 1}", "{2, 1, 1, x}", "{2, 1, 1, 1, 1}"]);
        20 -> ["{", place(), ", ", part(), "}"]
    end.

changes() ->
    case rand:uniform(8) of
        N when N =< 3 -> change();
        N when N =< 7 -> list(fun change/0);
        _ -> pick(["x", "7", "[]", "{}", "[{2, y} | x]", "[x]", "{2, y, z}", "{x, y}"])
    end.

change() -> ["{", place(), ", ", part(), "}"].

place() -> pick(["1", "2", "2", "2", "3", "3", "3", "4", "4", "5", "0", "-1"]).

%% One that is too short to have the key is left out: release 25 of the real machine breaks down where it puts one in.
default(Place) ->
    case chance(90) of
        true -> object(part(), Place);
        false -> pick(["x", "[]", "7", "[{a, 1}]"])
    end.

list(Item) -> ["[", lists:join(", ", [Item() || _ <- lists:seq(1, rand:uniform(4) - 1)]), "]"].
