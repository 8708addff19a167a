; Runs the scripts of folders with core.async itself, and says where it writes something else than is stored beside them:
;
;   tools/core-async conformance/core_async.clj [FOLDER ..]     conformance and examples if none is named
;
; A script that waits for good is stopped after some seconds; then `stuck` is its last line. What Clojure throws has other
; names than the language's faults, so only that the main text ended by one is compared. `range`, `keys` and `vals` answer
; vectors and maps keep their order, as in the language. The last line counts the scripts; the exit status is 1 where one
; differs.
(ns conformance
  (:require [clojure.core.async] [clojure.java.io :as io] [clojure.string :as string]))

(def names
  '[chan buffer dropping-buffer sliding-buffer promise-chan timeout close! go go-loop <! >! <!! >!! put! offer! poll!
    alts! alts!! alt! alt!! mult tap untap untap-all mix admix unmix unmix-all toggle solo-mode pub sub unsub unsub-all
    pipe merge pipeline onto-chan! to-chan! reduce into take split])

(def instead
  "What stands for Clojure's functions of these names, as the language has them."
  {'range (comp vec range) 'keys #(some-> (keys %) vec) 'vals #(some-> (vals %) vec) 'hash-map array-map})

(defn evaluate
  "Evaluates the script's forms in a namespace of its own; answers the line of its end, if it has one."
  [script]
  (binding [*ns* (create-ns (gensym "script"))]
    (refer 'clojure.core :exclude (into names (keys instead)))
    (refer 'clojure.core.async :only names)
    (run! (fn [[name function]] (intern *ns* name function)) instead)
    (try (load-string (slurp script)) nil
         (catch Throwable _ "fault"))))

(defn written
  "What the script writes, with the line of its end. One that should be stuck is given five seconds, any other a minute."
  [script stuck?]
  (let [out (java.io.StringWriter.)
        over (promise)
        run (bound-fn [] (binding [*out* out *err* (java.io.StringWriter.)] (deliver over (evaluate script))))]
    (doto (Thread. ^Runnable run) (.setDaemon true) (.start))
    (let [end (deref over (if stuck? 5000 60000) "stuck")]
      (str out (if end (str end "\n") "")))))

(defn output-of
  "The file with what the script writes."
  [script]
  (io/file (string/replace (str script) #"\.clj$" ".out")))

(defn stored
  "What is stored beside the script, its fault without a name."
  [script]
  (string/replace (slurp (output-of script)) #"(?m)^fault \w+(?=\n\z)" "fault"))

(defn tried
  "What the script writes. One that waits for the clock is tried three times, as a machine with much else to do may be late."
  [script expected]
  (loop [tries (if (string/includes? (slurp script) "(timeout ") 3 1)]
    (let [found (written script (string/ends-with? expected "stuck\n"))]
      (if (or (= found expected) (= tries 1)) found (recur (dec tries))))))

(defn differs?
  [script]
  (let [expected (stored script)
        found (tried script expected)]
    (when (not= found expected)
      (println (str script) "differs: core.async writes")
      (println (string/replace found #"(?m)^" "    ")))
    (not= found expected)))

(defn scripts
  [folder]
  (sort (filter #(and (string/ends-with? (str %) ".clj") (.exists (output-of %))) (.listFiles (io/file folder)))))

; what a go block throws would be told on the error stream
(Thread/setDefaultUncaughtExceptionHandler (reify Thread$UncaughtExceptionHandler (uncaughtException [_ _ _])))

(let [every (mapcat scripts (or (seq *command-line-args*) ["conformance" "examples"]))
      different (count (filter differs? every))]
  (println (count every) "scripts with core.async, of which" different "differ")
  (flush)
  (System/exit (if (zero? different) 0 1)))
