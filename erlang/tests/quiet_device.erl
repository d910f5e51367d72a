%% A leader of processes that takes what they print, refuses what the real one refuses, and drops the rest.
-module(quiet_device).

-export([start/0]).

start() -> spawn_link(fun loop/0).

loop() ->
    receive
        {io_request, From, Ref, Request} ->
            From ! {io_reply, Ref, answer(Request)},
            loop();
        _ -> loop()
    end.

answer({put_chars, Encoding, Module, Function, Arguments}) ->
    case catch apply(Module, Function, Arguments) of
        {'EXIT', _} -> {error, Function};
        Chars -> answer({put_chars, Encoding, Chars})
    end;
answer({put_chars, Encoding, Chars}) ->
    case catch unicode:characters_to_binary(Chars, Encoding) of
        Binary when is_binary(Binary) -> ok;
        _ -> {error, {put_chars, Encoding, Chars}}
    end;
answer(_) -> ok.
