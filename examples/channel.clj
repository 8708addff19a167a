(def c (chan)) (go (>! c 42)) (println (<!! c))
