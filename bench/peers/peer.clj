; The works of this folder in core.async: the name, the milliseconds of the first run in a new process, and of the best
; run of many. The name of one work and how many runs are the arguments.
(require '[clojure.core.async :as a :refer [chan go go-loop <! >! <!! >!! alts! alts!! close! pipeline timeout]])
(defn step [x] (mod (+ (* x 37) 11) 1000))
(defn load-run []
  (let [in (chan 16) out (chan 16)]
    (pipeline 8 out (map step) in)
    (go-loop [i 0] (if (< i 20000) (do (>! in i) (recur (inc i))) (close! in)))
    (loop [s 0 k 0] (let [v (<!! out)] (if (nil? v) [k s] (recur (+ s v) (inc k)))))))
(defn pingpong []
  (let [a (chan) b (chan)]
    (go-loop [] (let [x (<! a)] (if (nil? x) (close! b) (do (>! b (inc x)) (recur)))))
    (<!! (go-loop [i 0 x 0] (if (< i 500000) (do (>! a x) (recur (inc i) (<! b))) (do (close! a) x))))))
(defn fan-producer [id] (let [c (chan)] (go (dotimes [i 20] (>! c (+ id i)))) c))
(defn fan [cs] (let [o (chan)] (go-loop [n 5000] (if (> n 0) (let [[v c] (alts! cs)] (if (nil? v) (recur n) (do (>! o v) (recur (dec n))))))) o))
(defn fanin []
  (let [fs (mapv (fn [b] (fan (mapv (fn [i] (fan-producer (+ (* 250 b) i))) (range 250)))) (range 4))]
    (loop [n 0 s 0] (if (< n 20000) (let [[v c] (alts!! fs)] (if (nil? v) (recur n s) (recur (inc n) (+ s v)))) [n s]))))
(defn buffered []
  (let [c (chan 1024)]
    (go (dotimes [i 1000000] (>! c i)) (close! c))
    (<!! (go-loop [s 0] (let [x (<! c)] (if (nil? x) s (recur (+ s x))))))))
(defn alts-producer [id] (let [c (chan 4)] (go (dotimes [i 6250] (>! c (+ id i)))) c))
(defn alts []
  (let [cs (mapv alts-producer (range 16))]
    (<!! (go-loop [n 0 s 0] (if (< n 100000) (let [[v c] (alts! cs)] (recur (inc n) (+ s v))) s)))))
(defn timeouts []
  (let [c (chan 16)]
    (go (dotimes [i 100000] (>! c i)))
    (<!! (go-loop [n 0 s 0] (if (< n 100000) (let [[v p] (alts! [c (timeout 1000)])] (recur (inc n) (+ s v))) s)))))
(defn work [k] (loop [i 0 s k] (if (< i 400000) (recur (inc i) (mod (+ (* s 37) i) 1000)) s)))
(defn compute []
  (let [out (chan 16)]
    (dotimes [k 16] (go (>! out (work k))))
    (loop [n 0 s 0] (if (< n 16) (recur (inc n) (+ s (<!! out))) s))))
(def works {"load" load-run "pingpong" pingpong "fanin" fanin "buffered" buffered "alts" alts "timeouts" timeouts "compute" compute})
(let [[name runs] *command-line-args*
      work-run (works name)
      times (vec (for [_ (range (Long/parseLong runs))]
                   (let [start (System/nanoTime)] (work-run) (/ (- (System/nanoTime) start) 1e6))))]
  (println name (format "%.1f" (first times)) (format "%.1f" (apply min times))))
(shutdown-agents)
(System/exit 0)
