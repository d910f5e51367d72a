%% A worker that fails is started again, and its brother goes on; a call comes to the first one, the second one or none.
%% words: --after-timeout 5000
%% error: P ends {'result',0,1}
%% error: P ends {'result',1,1}
%% error: P ends {'result','failed',1}
%% error: P ends {'result','noproc',1}
%% error: P.1 ends {'result',0,1}
%% error: P.1 ends {'result',1,1}
%% error: P.1 ends {'result','failed',1}
%% error: P.1 ends {'result','noproc',1}
%% error: P.1.3 ends 'failed'
%% error: P.1.3 ends 'shutdown'
%% error: P.1.6 ends 'shutdown'
%% error: P.1.11 ends 'shutdown'
-module(supervisor_one_for_one).
-export([main/0, start_link/1, init/1, handle_call/3, handle_cast/2]).

main() ->
    {ok, _} = supervisor:start_link(?MODULE, supervisor),
    gen_server:cast(a, add),
    gen_server:cast(b, add),
    spawn(fun() -> gen_server:cast(a, fail) end),
    A = try gen_server:call(a, get) catch exit:{Why, _} -> Why end,
    exit({result, A, gen_server:call(b, get)}).

start_link(Name) -> gen_server:start_link({local, Name}, ?MODULE, 0, []).

init(supervisor) -> {ok, {#{strategy => one_for_one}, [#{id => Name, start => {?MODULE, start_link, [Name]}} || Name <- [a, b]]}};
init(N) -> {ok, N}.

handle_call(get, _, N) -> {reply, N, N}.

handle_cast(add, N) -> {noreply, N + 1};
handle_cast(fail, N) -> {stop, failed, N}.
