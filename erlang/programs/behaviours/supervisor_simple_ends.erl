%% A supervisor of workers of one kind ends: each may say farewell, and those that take too long are killed.
%% words: --after-timeout 5000
%% error: P ends {'result','shutdown',[]}
%% error: P ends {'result','shutdown',['shutdown']}
%% error: P ends {'result','shutdown',['shutdown','shutdown']}
%% error: P.2 ends 'shutdown'
%% error: P.2.4 ends 'killed'
%% error: P.2.7 ends 'killed'
-module(supervisor_simple_ends).
-export([main/0, start_link/1, init/1, work/1]).

main() ->
    process_flag(trap_exit, true),
    {ok, Supervisor} = supervisor:start_link(?MODULE, []),
    Workers = [Pid || _ <- [first, second], {ok, Pid} <- [supervisor:start_child(Supervisor, [self()])]],
    [receive {ready, Pid} -> ok end || Pid <- Workers],
    exit(Supervisor, shutdown),
    receive {'EXIT', Supervisor, Reason} -> exit({result, Reason, farewells()}) end.

farewells() -> receive {farewell, Reason} -> [Reason | farewells()] after 0 -> [] end.

start_link(Main) -> {ok, spawn_link(?MODULE, work, [Main])}.

init([]) ->
    Worker = #{id => worker, start => {?MODULE, start_link, []}, restart => transient, shutdown => 3},
    {ok, {#{strategy => simple_one_for_one}, [Worker]}}.

work(Main) ->
    process_flag(trap_exit, true),
    Main ! {ready, self()},
    receive {'EXIT', _, Reason} -> timer:sleep(1), Main ! {farewell, Reason} end.
