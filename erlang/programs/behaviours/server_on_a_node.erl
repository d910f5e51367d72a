%% A server is asked by its name on this node, in each way that there is; on another node, or by another name, there is nobody.
%% words: --after-timeout 5000
%% error: P ends {'result',{[{'nonode@nohost',2}],[]},{[],['nonode@nohost']},2}
%% error: P ends {'result',{[{'nonode@nohost',2}],[]},{[],['nonode@nohost']},3}
%% error: P ends {'result',{[{'nonode@nohost',3}],[]},{[],['nonode@nohost']},3}
%% error: P.2 ends {'result',{[{'nonode@nohost',2}],[]},{[],['nonode@nohost']},2}
%% error: P.2 ends {'result',{[{'nonode@nohost',2}],[]},{[],['nonode@nohost']},3}
%% error: P.2 ends {'result',{[{'nonode@nohost',3}],[]},{[],['nonode@nohost']},3}
-module(server_on_a_node).
-behaviour(gen_server).
-export([main/0, init/1, handle_call/3, handle_cast/2]).

main() ->
    {ok, _} = gen_server:start_link({local, here}, ?MODULE, 0, []),
    [gen_server:cast(To, add) || To <- [{here, node()}, {here, other@node}, {nobody, node()}, nobody]],
    abcast = gen_server:abcast(here, add),
    spawn(fun() -> gen_server:abcast([node()], here, add) end),
    There = gen_server:multi_call(here, get),
    exit({result, There, gen_server:multi_call(nobody, get), gen_server:call({here, node()}, get)}).

init(N) -> {ok, N}.

handle_call(get, _, N) -> {reply, N, N}.

handle_cast(add, N) -> {noreply, N + 1}.
