; Three producers on three channels, which one consumer hears through an alts. The order among the producers is free, so
; it counts; the order of each one is kept, and `sorted` says so.
(def ports [(chan) (chan) (chan)])

(doseq [source [0 1 2]]
  (go-loop [i 0]
    (when (< i 10)
      (>! (nth ports source) [source i])
      (recur (inc i)))))

(loop [heard 0 counts [0 0 0] sorted true]
  (if (< heard 30)
    (let [[value port] (alts!! ports)
          [source i] value]
      (recur (inc heard) (assoc counts source (inc i)) (and sorted (= i (nth counts source)))))
    (println "heard" counts "sorted" sorted)))
