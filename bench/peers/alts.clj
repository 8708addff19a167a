(defn producer [id] (let [c (chan 4)] (go (dotimes [i 6250] (>! c (+ id i)))) c))
(def cs (loop [i 0 v []] (if (< i 16) (recur (inc i) (conj v (producer i))) v)))
(def g (go-loop [n 0 s 0] (if (< n 100000) (let [[v c] (alts! cs)] (recur (inc n) (+ s v))) s)))
(println (<!! g))
