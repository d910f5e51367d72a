%% The functions of the library against those of the real machine: each with 400 random lists of
%% arguments, some of them wrong. Both give the same value, or raise the same reason. Where the library
%% stops there is nothing to compare, which may be so in half of the calls.
-module(library_tests).

-export([all/1, load/1, compared/3]).

-define(CALLS, 400).

all(Folder) ->
    rand:seed(exsss, {1, 2, 3}),
    Leader = group_leader(),
    group_leader(quiet_device:start(), self()),
    Modules = [load(File) || File <- filelib:wildcard(filename:join(Folder, "library/*.erl"))],
    Tables = tables(),
    Results = [[one(Module, Name, Tables) || {F, _} = Name <- lists:sort(Module:module_info(exports)), is_of_library(F)]
               || Module <- Modules],
    group_leader(Leader, self()),
    lists:append(Results).

load(File) ->
    {ok, Module, Code} = compile:file(File, [binary, nowarn_export_all]),
    {module, Module} = code:load_binary(Module, File, Code),
    Module.

%% What makes processes is tested by programs, and what the converter itself calls has no function there. What makes a
%% reference on the real machine, or knows less than it, has snippets; what a behaviour asks of the machine has programs.
is_of_library(F) ->
    case string:split(atom_to_list(F), ":") of
        [M, _] -> not lists:member(M, ["gen", "gen_server", "gen_statem", "gen_event", "proc_lib", "supervisor", "sys", "logger", "error_logger", "init", "net_kernel", "persistent_term",
                                       "application", "map pattern", "binary pattern", "binary segment", "flag without effect",
                                       "flag that is computed", "spawn options", "fixed table", "bag", "counters", "atomics"])
                      andalso not lists:member(F, ['ets:whereis', 'ets:match_spec_compile', 'ets:match_spec_run', 'ets:is_compiled_ms',
                                                   'ets:test_ms', 'erlang:send_after', 'erlang:start_timer', 'erlang:cancel_timer', 'erlang:read_timer',
                                                   'erlang:spawn', 'erlang:spawn_link', 'erlang:spawn_monitor',
                                                   'erlang:hibernate', 'erlang:monitor_node', 'erlang:process_info', 'erlang:unique_integer',
                                                   'timer:send_after', 'timer:send_interval', 'timer:apply_after',
                                                   'timer:exit_after', 'timer:kill_after', 'timer:cancel'])
                      andalso not differs_each_time(list_to_atom(M), F);
        [_] -> false
    end.

%% What gives something else each time on the real machine, or changes the process that tests; these have snippets.
differs_each_time(M, _) when M =:= rand; M =:= random; M =:= os -> true;
differs_each_time(_, F) ->
    lists:member(F, ['erlang:monotonic_time', 'erlang:system_time', 'erlang:time_offset', 'erlang:timestamp', 'erlang:now', 'erlang:date',
                     'erlang:time', 'erlang:statistics', 'erlang:localtime', 'erlang:universaltime', 'timer:tc', 'erlang:group_leader', 'erlang:process_flag']).

one(Module, {F, Arity} = Name, Tables) ->
    Text = lists:concat(["library: ", F, "/", Arity]),
    case kinds(Name) of
        none -> {Text, {failed, no_arguments_are_known}};
        Kinds ->
            Results = [compared(Module, F, arguments(Kinds, Tables)) || _ <- lists:seq(1, ?CALLS)],
            case {[R || {_, _, real, _, ours, _} = R <- Results], length([stop || stop <- Results])} of
                {[], Stops} when Stops * 2 =< ?CALLS -> {Text, passed};
                {[], Stops} -> {Text, {failed, {stops, Stops}}};
                {[First | _] = Differences, _} -> {Text, {failed, {length(Differences), First}}}
            end
    end.

compared(Module, F, Arguments) ->
    [M, Name] = string:split(atom_to_list(F), ":"),
    Real = outcome(list_to_atom(M), list_to_atom(Name), Arguments, fun(X) -> X end),
    Ours = outcome(Module, F, [ours(A) || A <- Arguments], fun theirs/1),
    case Ours of
        stop -> stop;
        Real -> same;
        _ -> {F, Arguments, real, Real, ours, Ours}
    end.

outcome(M, F, Arguments, Back) ->
    try {ok, without_continuation(Back(apply(M, F, Arguments))), contents()}
    catch
        error:undef:Trace when M =/= erlang -> stopped(Trace);
        Class:Reason -> {Class, Back(Reason), contents()}
    after restore()
    end.

%% What takes up a walk has another form on the real machine.
without_continuation({Found, Continuation}) when is_list(Found), is_tuple(Continuation), tuple_size(Continuation) > 1 -> {Found, more};
without_continuation(Value) -> Value.

%% The library stops by a call of a function that nobody has. Its name is a sentence.
stopped([{erlang, Name, _, _} | _]) ->
    true = lists:member($\s, atom_to_list(Name)),
    stop;
stopped(_) -> {error, undef}.

%% Maps and binaries as the library's source writes them, and back.
ours(T) when is_map(T) -> {'$map', lists:sort([{ours(K), ours(V)} || {K, V} <- maps:to_list(T)])};
ours(T) when is_binary(T) -> {'$binary', binary_to_list(T)};
ours([H | T]) -> [ours(H) | ours(T)];
ours(T) when is_tuple(T) -> list_to_tuple([ours(X) || X <- tuple_to_list(T)]);
ours(T) -> T.

theirs({'$map', L}) -> maps:from_list([{theirs(K), theirs(V)} || {K, V} <- L]);
theirs({'$binary', L}) -> list_to_binary(L);
theirs([H | T]) -> [theirs(H) | theirs(T)];
theirs(T) when is_tuple(T) -> list_to_tuple([theirs(X) || X <- tuple_to_list(T)]);
theirs(T) -> T.

%% ---- arguments

arguments(Kinds, Tables) ->
    Good = [argument(K, Tables) || K <- Kinds],
    case rand:uniform(6) of
        1 when Good =/= [] ->
            N = rand:uniform(length(Good)),
            lists:sublist(Good, N - 1) ++ [junk(lists:nth(N, Good))] ++ lists:nthtail(N, Good);
        _ -> Good
    end.

junk(Good) -> pick([x, -1, 0, {}, [1 | 2], fun(_, _, _, _) -> x end, [Good], Good]).

argument(int, _) -> rand:uniform(5) - 1;
argument(step, _) -> pick([1, 2, 3, -1, -2, 0]);
argument(any, _) -> item();
argument(list, _) -> some(fun item/0);
argument(ints, _) -> some(fun() -> rand:uniform(9) - 4 end);
argument(sorted, _) -> lists:sort(some(fun item/0));
argument(lists, _) -> some(fun() -> some(fun item/0) end);
argument(deep, _) -> some(fun() -> pick([item(), some(fun item/0), [some(fun item/0)]]) end);
argument(pairs, _) -> some(fun() -> {pick([a, b, c, 1]), item()} end);
argument(mixed, _) -> some(fun() -> pick([a, b, {a, 1}, {b, true}, {c}, {a, 1, 2}, {c, x}, 7]) end);
argument(triples, _) -> some(fun() -> {item(), item(), item()} end);
argument(key, _) -> pick([a, b, c, 1]);
argument(position, _) -> pick([1, 1, 2]);
argument(tuple, _) -> list_to_tuple(some(fun item/0));
argument(pair, _) -> {pick([a, b, new]), item()};
argument(number, _) -> pick([rand:uniform(100), -rand:uniform(1000000), 9223372036854775807, -9223372036854775808, 0]);
argument(test, _) -> pick([fun is_atom/1, fun(X) -> X < 2 end, fun(X) -> X =/= a end, fun(_) -> maybe end]);
argument(one, _) -> pick([fun(X) -> {X} end, fun(X) -> [X, X] end, fun(X) -> X + 1 end]);
argument(many, _) -> pick([fun(X) -> [X, {X}] end, fun(_) -> [] end, fun(X) -> X end]);
argument(choice, _) -> fun(X) -> case X of a -> true; N when is_integer(N), N > 1 -> {true, N * 2}; b -> none; _ -> false end end;
argument(fold, _) -> pick([fun(X, A) -> [X | A] end, fun(X, _) -> X end, fun(X, A) -> {X, A} end]);
argument(both, _) -> pick([fun(X, A) -> {X, [X | A]} end, fun(X, A) -> {{X}, A} end, fun(X, _) -> X end]);
argument(order, _) -> pick([fun(A, B) -> A >= B end, fun(A, B) -> A =< B end, fun(A, B) -> A < B end]);
argument(empty, _) -> [];
argument(queue, _) -> queue(rand:uniform(9) - 1);
argument(map, _) -> maps:from_list(some(fun() -> {pick([a, b, c, 1, 2]), item()} end));
argument(keys, _) -> some(fun() -> pick([a, b, c, 1, 2]) end);
argument(map_one, _) -> pick([fun(K, V) -> {K, V} end, fun(_, V) -> V + 1 end]);
argument(map_test, _) -> pick([fun(K, _) -> is_atom(K) end, fun(_, V) -> V =:= a end, fun(_, _) -> maybe end]);
argument(map_choice, _) -> fun(K, V) -> case K of a -> true; 1 -> {true, {V}}; 2 -> none; _ -> false end end;
argument(map_fold, _) -> fun(K, V, A) -> [{K, V} | A] end;
argument(map_three, _) -> fun(K, A, B) -> {K, A, B} end;
argument(binary, _) -> list_to_binary(some(fun letter/0));
argument(long, _) -> list_to_binary([letter() || _ <- lists:seq(1, rand:uniform(40) - 1)]);
argument(binaries, Tables) -> some(fun() -> argument(binary, Tables) end);
argument(place, _) -> rand:uniform(8) - 3;
argument(part, _) -> {rand:uniform(8) - 3, rand:uniform(8) - 4};
argument(bytes, _) -> deep(3);
argument(base, _) -> pick([2, 8, 10, 10, 16, 36, 1, 37]);
argument(digits, _) -> integer_to_binary(rand:uniform(600) - 300, pick([2, 8, 10, 10, 16, 36]));
argument(decimal, Tables) ->
    Odd = [<<"+12">>, <<"-">>, <<>>, <<"1x">>, <<"-9223372036854775808">>, <<"+-1">>, <<"00012">>],
    pick([integer_to_binary(argument(number, Tables)) | Odd]);
argument(needles, Tables) ->
    pick([<<"a">>, <<"b">>, <<"ab">>, <<"ba">>, [<<"a">>, <<"ab">>], [<<"c">>, <<"bc">>, <<"b">>], argument(binaries, Tables)]);
argument(hex, _) -> pick([binary:encode_hex(list_to_binary(some(fun letter/0))), <<"0aFf">>, <<"abc">>, <<"xy">>, <<"0@">>]);
argument(endian, _) -> pick([big, little, little, none]);
argument(scope, _) -> {scope, {rand:uniform(8) - 2, rand:uniform(6) - 3}};
argument(options, Tables) -> some_of([argument(scope, Tables), {scope, {0, 3}}, {scope, {0, 0}}, other]);
argument(split_options, Tables) -> some_of([global, global, trim, trim_all, argument(scope, Tables), {scope, {0, 4}}]);
argument(replace_options, _) ->
    some_of([global, global, {insert_replaced, rand:uniform(3) - 1}, {insert_replaced, [1, 0]}, {insert_replaced, []}, {scope, {1, 4}}]);
argument(deep_text, _) -> text(3);
argument(table, Tables) -> pick(Tables);
argument(table_fold, _) -> fun(R, A) -> [R | A] end;
argument(pattern, _) -> pattern();
argument(specification, _) -> specification();
argument(replacement, _) -> replacement();
argument(continuation, _) -> pick(['$end_of_table', {}, [], more]);
argument(item, _) -> pick([size, type, keypos, protection, named_table, heir, name, none]);
argument(bool, _) -> pick([true, false]);
argument(lists_sorted, _) -> some(fun() -> lists:sort(some(fun item/0)) end);
argument(sorted_once, _) -> lists:usort(some(fun item/0));
argument(lists_sorted_once, _) -> some(fun() -> lists:usort(some(fun item/0)) end);
argument(words, _) -> some(fun() -> pick([ok, rand:uniform(99), "text"]) end);
argument(whole_order, _) -> pick([fun(A, B) -> A >= B end, fun(A, B) -> A =< B end]);
argument(zip_fold, _) -> fun(A, B, C) -> {A, B, C} end;
argument(walked, _) -> pick([argument(map, none), argument(map, none), argument(iterator, none)]);
argument(iterator, _) -> pick([none, [0 | argument(map, none)], {a, 1, none}, maps:next([0 | #{a => 1, b => 2}])]);
argument({text, Kind}, _) -> text_arguments:argument(Kind).

letter() -> pick("abcabcabc" ++ [0, 128, 255]).

%% Deep lists of bytes and binaries, and of characters and binaries.
deep(Depth) ->
    some(fun() ->
             case rand:uniform(8) of
                 N when N < 3, Depth > 0 -> deep(Depth - 1);
                 3 -> list_to_binary(some(fun letter/0));
                 4 when Depth > 2 -> pick([256, -1, a, [1 | <<2>>], [1 | 2]]);
                 _ -> letter()
             end
         end).

text(Depth) ->
    some(fun() ->
             case rand:uniform(6) of
                 N when N < 3, Depth > 0 -> text(Depth - 1);
                 3 -> unicode:characters_to_binary([character() || _ <- [1, 2]]);
                 _ -> character()
             end
         end).

character() -> pick([$a, $z, 127, 128, 233, 2047, 2048, 8364, 16#D7FF, 16#E000, 16#FFFF, 16#10000, 16#1D11E, 16#10FFFF]).

item() -> pick([a, b, c, rand:uniform(5) - 1, rand:uniform(5) - 1]).
some(Make) -> [Make() || _ <- lists:seq(1, rand:uniform(6) - 1)].
pick(L) -> lists:nth(rand:uniform(length(L)), L).

queue(0) -> queue:new();
queue(N) ->
    Q = queue(N - 1),
    pick([queue:in(item(), Q), queue:in_r(item(), Q), element(2, queue:out(Q)), element(2, queue:out_r(Q)), queue:in(item(), Q)]).

%% ---- tables, of kinds whose walks are in the order of keys

tables() ->
    put(tables, [{ets:new(x, [ordered_set, public]), [{I, pick([a, b, c])} || I <- lists:seq(1, 6)]},
                 {ets:new(y, [ordered_set, public]), [{{I, b}, I, [a, I]} || I <- lists:seq(1, 4)]},
                 {ets:new(z, [ordered_set, public]), []}]),
    restore(),
    [T || {T, _} <- get(tables)].

contents() ->
    case get(tables) of
        undefined -> [];
        Tables -> [ets:tab2list(T) || {T, _} <- Tables]
    end.

%% Both sides find the same objects.
restore() ->
    case get(tables) of
        undefined -> ok;
        Tables -> [begin ets:delete_all_objects(T), ets:insert(T, Objects) end || {T, Objects} <- Tables]
    end.

pattern() ->
    pick([{'$1', '$2'}, {'_', '$1'}, {'$1', a}, {2, '$1'}, {'$2', '$1'}, {'$1', '$1'}, '_', '$1', {'$1', '_'}, {{'$1', b}, '$2', '_'},
          {{'$1', '_'}, '$1', '$3'}, {'_', '_', ['$1' | '$2']}, {'_', '_', [a, '$10']}, {'$10', '$9'}]).

specification() ->
    Head = pick([{'$1', '$2'}, {'$1', a}, '_', '$1', {{'$1', b}, '$2', '_'}]),
    Clause = {Head, some_guards(), [pick(['$_', '$$', '$1', x, {{'$1', z}}, [a, '$1'], {const, {y}}, {'+', '$1', 1}, {element, 1, '$_'}, {length, '$1'}, {size, '$_'}, 7])]},
    pick([[Clause], [Clause], [{pattern(), [{is_atom, '$2'}], ['$$']}, Clause], [{'_', [], [true]}], [{'$1', [{'is_tuple', '$1'}], [true]}]]).

replacement() ->
    [{pick([{'$1', '$2'}, {'$1', a}, {{'$1', b}, '$2', '_'}, {2, '$1'}, '_', '$1']), some_guards(),
      [pick(['$_', '$1', {{'$1', z}}, {{'$1', '$1'}}, {const, {2, y}}, {{2, '$1'}}, {{{{'$1', b}}, x, []}}, {{{element, 1, '$_'}, q}}, {{'$2', q}},
             {{{const, 2}, q}}, x, {{}}])]}].

some_guards() ->
    some_of([{'>', '$1', 2}, {'<', '$1', {const, 3}}, {is_atom, '$2'}, {is_integer, '$1'}, {'andalso', {is_integer, '$1'}, {'>', '$1', 3}},
             {'orelse', {'=:=', '$2', a}, {'=:=', '$2', b}}, {'not', {'==', '$1', 2}}, {'=/=', {'rem', '$1', 2}, 0}, {'and', true, {'>', '$1', 1}}, true,
             {'=:=', {'band', '$1', 1}, 1}, {'and', true, {is_float, '$1'}, true}, {'or', false, {is_number, '$1'}, {is_list, '$1'}}, {is_map, '$1'}]).

some_of(L) -> [pick(L) || _ <- lists:seq(1, rand:uniform(3) - 1)].

%% ---- what each function takes

kinds({F, A}) ->
    case lists:keyfind({F, A}, 1, kinds()) of
        {_, Kinds} when length(Kinds) =:= A -> Kinds;
        false -> none
    end.

kinds() ->
    [{{list_to_atom(M ++ ":" ++ atom_to_list(F)), length(Kinds)}, Kinds} || {M, Fs} <- [{"lists", of_lists()}, {"queue", of_queue()},
      {"proplists", of_proplists()}, {"maps", of_maps()}, {"ets", of_ets()}, {"erlang", of_erlang()}, {"timer", of_timer()},
      {"binary", of_binary()}, {"unicode", [{characters_to_binary, [deep_text]}, {characters_to_list, [deep_text]}]}], {F, Kinds} <- Fs]
         ++ text_arguments:kinds().

of_lists() ->
    [{map, [one, list]}, {foreach, [one, list]}, {foldl, [fold, empty, list]}, {foldr, [fold, empty, list]}, {filter, [test, list]},
     {filtermap, [choice, list]}, {flatmap, [many, list]}, {mapfoldl, [both, empty, list]}, {mapfoldr, [both, empty, list]},
     {partition, [test, list]}, {splitwith, [test, list]}, {all, [test, list]}, {any, [test, list]}, {search, [test, list]},
     {takewhile, [test, list]}, {dropwhile, [test, list]}, {zipwith, [fold, list, list]}, {keymap, [one, position, pairs]},
     {seq, [int, int]}, {seq, [int, int, step]}, {sum, [ints]}, {max, [list]}, {min, [list]}, {nth, [int, list]}, {nthtail, [int, list]},
     {last, [list]}, {droplast, [list]}, {sublist, [list, int]}, {sublist, [list, int, int]}, {split, [int, list]}, {duplicate, [int, any]},
     {enumerate, [list]}, {enumerate, [int, list]}, {delete, [any, list]}, {subtract, [list, list]}, {append, [lists]}, {reverse, [list, list]},
     {flatten, [deep]}, {join, [any, list]}, {prefix, [list, list]}, {suffix, [list, list]}, {zip, [list, list]}, {zip3, [list, list, list]},
     {unzip, [pairs]}, {unzip3, [triples]}, {keyfind, [key, position, pairs]}, {keysearch, [key, position, pairs]},
     {keymember, [key, position, pairs]}, {keydelete, [key, position, pairs]}, {keyreplace, [key, position, pairs, pair]},
     {keystore, [key, position, pairs, pair]}, {keytake, [key, position, pairs]}, {sort, [list]}, {sort, [order, list]},
     {keysort, [position, pairs]}, {merge, [sorted, sorted]}, {usort, [list]},
     {concat, [words]}, {flatlength, [deep]}, {flatten, [deep, list]}, {keymerge, [position, pairs, pairs]}, {merge, [lists_sorted]},
     {merge, [order, list, list]}, {merge3, [sorted, sorted, sorted]}, {ukeymerge, [position, pairs, pairs]}, {ukeysort, [position, pairs]},
     {umerge, [lists_sorted_once]}, {umerge, [list, list]}, {umerge, [order, list, list]},
     {umerge3, [sorted_once, sorted_once, sorted_once]}, {uniq, [list]}, {uniq, [one, list]}, {usort, [whole_order, list]},
     {zf, [choice, list]}, {zipwith3, [zip_fold, list, list, list]}].

of_queue() ->
    [{new, []}, {is_queue, [queue]}, {is_empty, [queue]}, {len, [queue]}, {to_list, [queue]}, {from_list, [list]}, {member, [any, queue]},
     {in, [any, queue]}, {in_r, [any, queue]}, {out, [queue]}, {out_r, [queue]}, {peek, [queue]}, {peek_r, [queue]}, {get, [queue]},
     {get_r, [queue]}, {drop, [queue]}, {drop_r, [queue]}, {reverse, [queue]}, {join, [queue, queue]}].

of_proplists() ->
    [{get_value, [key, mixed]}, {get_value, [key, mixed, any]}, {get_bool, [key, mixed]}, {lookup, [key, mixed]},
     {is_defined, [key, mixed]}, {delete, [key, mixed]}, {get_all_values, [key, mixed]}].

of_maps() ->
    [{new, []}, {put, [key, any, map]}, {update, [key, any, map]}, {find, [key, map]}, {get, [key, map]}, {get, [key, map, any]},
     {is_key, [key, map]}, {remove, [key, map]}, {take, [key, map]}, {keys, [map]}, {values, [map]}, {to_list, [map]}, {size, [map]},
     {from_list, [pairs]}, {from_keys, [keys, any]}, {merge, [map, map]}, {merge_with, [map_three, map, map]}, {map, [map_one, walked]},
     {filter, [map_test, walked]}, {filtermap, [map_choice, walked]}, {fold, [map_fold, empty, walked]}, {foreach, [map_one, walked]},
     {update_with, [key, one, map]}, {update_with, [key, one, any, map]}, {with, [keys, map]}, {without, [keys, map]},
     {groups_from_list, [one, list]}, {groups_from_list, [one, many, list]}, {intersect, [map, map]},
     {intersect_with, [map_three, map, map]},
     {iterator, [map]}, {next, [iterator]}].

of_ets() ->
    [{foldl, [table_fold, empty, table]}, {foldr, [table_fold, empty, table]}, {match, [table, pattern]}, {match_object, [table, pattern]},
     {match_delete, [table, pattern]}, {select, [table, specification]}, {select_count, [table, specification]}, {select_delete, [table, specification]},
     {select_reverse, [table, specification]}, {select_replace, [table, replacement]}, {select, [table, specification, int]},
     {select_reverse, [table, specification, int]}, {match, [table, pattern, int]}, {match_object, [table, pattern, int]},
     {select, [continuation]}, {select_reverse, [continuation]}, {match, [continuation]}, {match_object, [continuation]},
     {safe_fixtable, [table, bool]}, {info, [table, item]}].

of_erlang() ->
    [{max, [any, any]}, {min, [any, any]}, {append_element, [tuple, any]}, {make_tuple, [int, any]}, {integer_to_list, [number]},
     {map_size, [map]}, {is_map_key, [key, map]}, {map_get, [key, map]},
     {byte_size, [binary]}, {bit_size, [binary]}, {size, [binary]}, {binary_to_list, [binary]}, {binary_to_list, [binary, place, place]},
     {bitstring_to_list, [binary]}, {list_to_binary, [bytes]}, {list_to_bitstring, [bytes]}, {iolist_to_binary, [bytes]},
     {iolist_size, [bytes]}, {split_binary, [binary, place]}, {binary_part, [binary, part]}, {binary_part, [binary, place, place]},
     {integer_to_binary, [number]}, {integer_to_binary, [number, base]}, {binary_to_integer, [decimal]}, {binary_to_integer, [digits, base]}].

of_binary() ->
    [{at, [binary, place]}, {first, [binary]}, {last, [binary]}, {bin_to_list, [binary]}, {bin_to_list, [binary, part]},
     {bin_to_list, [binary, place, place]}, {list_to_bin, [bytes]}, {part, [binary, part]}, {part, [binary, place, place]}, {copy, [binary]},
     {copy, [binary, place]}, {encode_hex, [binary]}, {decode_hex, [hex]}, {encode_unsigned, [number]},
     {encode_unsigned, [number, endian]}, {decode_unsigned, [binary]}, {decode_unsigned, [binary, endian]},
     {longest_common_prefix, [binaries]}, {longest_common_suffix, [binaries]}, {match, [long, needles]},
     {match, [long, needles, options]}, {matches, [long, needles]}, {matches, [long, needles, options]}, {split, [long, needles]},
     {split, [long, needles, split_options]}, {replace, [long, needles, binary]}, {replace, [long, needles, binary, replace_options]}].

of_timer() -> [{seconds, [int]}, {minutes, [int]}, {hours, [int]}].
