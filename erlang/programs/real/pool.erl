%% Debian's poolboy, as it is installed, under OTP's supervisor: two clients of a pool of one worker each get it and give it back.
%% needs: poolboy
%% error: deadlock of P.1 P.1.3 P.1.3.4
-module(pool).
-export([main/0]).

main() ->
    {ok, Pool} = poolboy:start([{worker_module, pool_worker}, {size, 1}, {max_overflow, 0}], []),
    Me = self(),
    spawn(fun() -> use(Pool), Me ! done end),
    use(Pool),
    receive done -> ok end.

use(Pool) ->
    Worker = poolboy:checkout(Pool, true, infinity),
    true = is_pid(Worker),
    poolboy:checkin(Pool, Worker).
