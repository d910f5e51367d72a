%% Numbers that processes share: counters and atomics. They are rows of a public table, which goes with the process that
%% made them: who asks for them then comes to what is not read. What asks for two things at once, as exchange/3, is not
%% here, since the explorer has no such call.
-module(shared_numbers).
-compile([export_all, nowarn_export_all]).

'counters:new'(Size, []) -> 'counters:new'(Size, [atomics]);
'counters:new'(Size, [Kind]) when Kind =:= atomics; Kind =:= write_concurrency -> {Kind, 'numbers new'(Size)};
'counters:new'(_, _) -> error(badarg).

'counters:get'(Counters, I) -> 'numbers get'('numbers of'(Counters), I).
'counters:put'(Counters, I, Value) -> 'numbers put'('numbers of'(Counters), I, Value).
'counters:add'(Counters, I, Value) -> 'numbers add'('numbers of'(Counters), I, Value), ok.
'counters:sub'(Counters, I, Value) -> 'numbers add'('numbers of'(Counters), I, -Value), ok.

'numbers of'({Kind, Numbers}) when Kind =:= atomics; Kind =:= write_concurrency -> Numbers;
'numbers of'(_) -> error(badarg).

'atomics:new'(Size, Options) when length(Options) >= 0 ->
    Signed = [IsSigned || {signed, IsSigned} <- Options, is_boolean(IsSigned)],
    length(Signed) =:= length(Options) orelse error(badarg),
    lists:last([true | Signed]) orelse atomics:'new of unsigned integers'(Size, Options),
    'numbers new'(Size);
'atomics:new'(_, _) -> error(badarg).

'atomics:get'(Numbers, I) -> 'numbers get'(Numbers, I).
'atomics:put'(Numbers, I, Value) -> 'numbers put'(Numbers, I, Value).
'atomics:add'(Numbers, I, Value) -> 'numbers add'(Numbers, I, Value), ok.
'atomics:sub'(Numbers, I, Value) -> 'numbers add'(Numbers, I, -Value), ok.
'atomics:add_get'(Numbers, I, Value) -> 'numbers add'(Numbers, I, Value).
'atomics:sub_get'(Numbers, I, Value) -> 'numbers add'(Numbers, I, -Value).

'numbers new'(Size) when is_integer(Size), Size > 0 ->
    Numbers = ets:new(numbers, [public]),
    ets:insert(Numbers, [{I, 0} || I <- lists:seq(1, Size)]),
    Numbers;
'numbers new'(_) -> error(badarg).

'numbers get'(Numbers, I) ->
    try ets:lookup_element(Numbers, I, 2) catch error:_ -> 'numbers refused'(Numbers) end.

'numbers put'(Numbers, I, Value) when is_integer(Value) ->
    IsThere = try ets:update_element(Numbers, I, {2, Value}) catch error:_ -> 'numbers refused'(Numbers) end,
    IsThere orelse error(badarg),
    ok;
'numbers put'(_, _, _) -> error(badarg).

'numbers add'(Numbers, I, Value) ->
    try ets:update_counter(Numbers, I, {2, Value})
    catch error:_ ->
        is_integer(Value) andalso is_reference(Numbers) andalso ets:info(Numbers, type) =/= undefined andalso ets:member(Numbers, I)
            andalso counters:'a number past 64 bits'(Numbers, I),
        'numbers refused'(Numbers)
    end.

%% What was asked for is wrong, unless there are no numbers any more.
'numbers refused'(Numbers) ->
    is_reference(Numbers) andalso ets:info(Numbers, type) =:= undefined
        andalso counters:'numbers of a process that has ended'(Numbers),
    error(badarg).
