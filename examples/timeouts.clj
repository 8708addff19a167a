; A client waits for an answer for half a second at most; the server answers those who ask politely.
(def requests (chan))

(go-loop []
  (when-some [request (<! requests)]
    (let [[name polite reply] request]
      (when polite
        (<! (timeout 5))
        (>! reply (str "hello " name)))
      (recur))))

(doseq [[name polite] [["Ann" true] ["Bob" false] ["Cid" true]]]
  (let [reply (chan)]
    (>!! requests [name polite reply])
    (let [[answer port] (alts!! [reply (timeout 500)])]
      (println (if (= port reply) answer (str "nothing for " name))))))
