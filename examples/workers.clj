; Four go blocks take jobs from one channel, and put what comes of them on another.
(def jobs (chan))
(def results (chan))
(dotimes [w 4]
  (go-loop []
    (when-some [n (<! jobs)]
      (>! results (* n n))
      (recur))))
(onto-chan! jobs [1 2 3 4 5])
(println (loop [i 0 sum 0] (if (< i 5) (recur (inc i) (+ sum (<!! results))) sum)))
