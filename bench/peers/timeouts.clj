(def c (chan 16))
(go (dotimes [i 100000] (>! c i)))
(def g (go-loop [n 0 s 0] (if (< n 100000) (let [[v p] (alts! [c (timeout 1000)])] (recur (inc n) (+ s v))) s)))
(println (<!! g))
