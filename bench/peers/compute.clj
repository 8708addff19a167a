(defn work [k] (loop [i 0 s k] (if (< i 400000) (recur (inc i) (mod (+ (* s 37) i) 1000)) s)))
(def out (chan 16))
(dotimes [k 16] (go (>! out (work k))))
(println (loop [n 0 s 0] (if (< n 16) (recur (inc n) (+ s (<!! out))) s)))
