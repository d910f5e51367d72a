%% ./explore examples/account.erl --after-timeout 5000
-module(account).
-behaviour(gen_server).
-export([main/0, init/1, handle_call/3, handle_cast/2]).

%% Two buyers look at the balance of one account, and pay where it is enough.
main() ->
    {ok, Account} = gen_server:start_link(?MODULE, 10, []),
    {_, Ref} = spawn_monitor(fun() -> buy(Account) end),
    buy(Account),
    receive {'DOWN', Ref, process, _, _} -> ok end,
    Balance = gen_server:call(Account, balance),
    gen_server:stop(Account),
    true = Balance >= 0.

buy(Account) ->
    case gen_server:call(Account, balance) of
        Balance when Balance >= 8 -> gen_server:cast(Account, {pay, 8});
        _ -> too_little
    end.

init(Balance) -> {ok, Balance}.

handle_call(balance, _, Balance) -> {reply, Balance, Balance}.

handle_cast({pay, Sum}, Balance) -> {noreply, Balance - Sum}.
