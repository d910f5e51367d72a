%% ./explore examples/relay.erl --any-delay
-module(relay).
-export([main/0]).

main() ->
    Store = self(),
    Reader = spawn(fun() -> receive written -> 1 = ask(Store) end end),
    spawn(fun() -> Store ! {write, 1}, Reader ! written end),
    serve(0, 2).

ask(Store) ->
    Store ! {read, self()},
    receive {value, Value} -> Value end.

serve(_, 0) -> ok;
serve(Value, Requests) ->
    receive
        {write, New} -> serve(New, Requests - 1);
        {read, From} -> From ! {value, Value}, serve(Value, Requests - 1)
    end.
